// Headers of the original; the control byte is looked at here, as it leaves that to a file that is not given.
use embedded_bacnet::application_protocol::confirmed::{
    ComplexAck, ComplexAckService, ConfirmedBacnetError, ConfirmedRequest, ConfirmedRequestService,
    SegmentAck, SimpleAck,
};
use embedded_bacnet::common::error::Error;
use embedded_bacnet::common::io::{Reader, Writer};
use protocol::Header;

pub enum Pdu<'a> {
    Request(ConfirmedRequest<'a>),
    Simple(SimpleAck),
    Complex(ComplexAck<'a>),
    Segment(SegmentAck),
    Error(ConfirmedBacnetError),
}

pub type Decode = for<'a> fn(&mut Reader, &'a [u8]) -> Result<Pdu<'a>, Error>;

// The header at the reader's place: its control byte, then what the original decodes for that type.
#[inline(never)]
pub fn decode<'a>(reader: &mut Reader, buf: &'a [u8]) -> Result<Pdu<'a>, Error> {
    match reader.read_byte(buf)? >> 4 {
        0 => Ok(Pdu::Request(ConfirmedRequest::decode(reader, buf)?)),
        2 => Ok(Pdu::Simple(SimpleAck::decode(reader, buf)?)),
        3 => Ok(Pdu::Complex(ComplexAck::decode(reader, buf)?)),
        4 => Ok(Pdu::Segment(SegmentAck::decode(reader, buf)?)),
        5 => Ok(Pdu::Error(ConfirmedBacnetError::decode(reader, buf)?)),
        _ => Err(Error::SegmentationNotSupported),
    }
}

// Writes a header by the original's writer for its type.
#[inline(never)]
pub fn encode(pdu: &Pdu, writer: &mut Writer) {
    match pdu {
        Pdu::Request(request) => request.encode(writer),
        Pdu::Simple(ack) => ack.encode(writer),
        Pdu::Complex(ack) => ack.encode(writer),
        Pdu::Segment(ack) => ack.encode(writer),
        Pdu::Error(_) => panic!("the original writes no error"),
    }
}

// The original's header; requests and complex acknowledgements are those of ReadProperty, whose bodies are stand-ins of no bytes.
pub fn named(header: Header) -> Pdu<'static> {
    match header {
        Header::Request { segments, size, id, .. } => {
            let mut request = ConfirmedRequest::new(
                id,
                ConfirmedRequestService::ReadProperty(Default::default()),
            );
            request.max_segments = (segments << 4).into();
            request.max_adpu = size.into();
            Pdu::Request(request)
        }
        Header::Simple { id, choice } => Pdu::Simple(SimpleAck {
            invoke_id: id,
            service_choice: choice.try_into().expect("a choice"),
        }),
        Header::Complex { id, .. } => Pdu::Complex(ComplexAck {
            invoke_id: id,
            service: ComplexAckService::ReadProperty(Default::default()),
        }),
        Header::Segment { id, sequence, window } => Pdu::Segment(SegmentAck {
            invoke_id: id,
            sequence_num: sequence,
            proposed_window_size: window,
        }),
        _ => panic!("the original writes no error, reject or abort"),
    }
}
