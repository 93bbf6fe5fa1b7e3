// Headers, asked of the given Rust; the control byte, which it leaves to a file that is not there, is looked at here.
use crate::error_frames;
use crate::errors::refusal;
use embedded_bacnet::application_protocol::confirmed::{
    ComplexAck, ComplexAckService, ConfirmedRequest, ConfirmedRequestService,
    ConfirmedServiceChoice, SegmentAck, SimpleAck,
};
use embedded_bacnet::common::error::Error;
use embedded_bacnet::common::io::{Reader, Writer};
use protocol::Header;

// The kinds without their segment bit; none for another control byte.
pub fn read(reader: &mut Reader, buf: &[u8]) -> Option<String> {
    let place = reader.index;
    let control = match reader.read_byte(buf) {
        Ok(control) => control,
        Err(error) => return refusal(error, buf, place),
    };
    let header = match (control >> 4, control & 8) {
        (0, 0) => request(reader, buf),
        (2, _) => SimpleAck::decode(reader, buf)
            .map(|ack| Header::Simple { id: ack.invoke_id, choice: ack.service_choice as u8 }),
        (3, 0) => complex(reader, buf),
        (4, _) => SegmentAck::decode(reader, buf).map(|ack| Header::Segment {
            id: ack.invoke_id,
            sequence: ack.sequence_num,
            window: ack.proposed_window_size,
        }),
        (5, _) => error_frames::read(reader, buf),
        _ => return None,
    };
    match header {
        Ok(header) => Some(format!("ok {header} {}", reader.index)),
        Err(Error::ExpectedTag(tag)) => {
            let at = error_frames::place_of(tag.context, buf, place)?;
            refusal(Error::ExpectedTag(tag), buf, at)
        }
        Err(error) => refusal(error, buf, place),
    }
}

fn request(reader: &mut Reader, buf: &[u8]) -> Result<Header, Error> {
    use ConfirmedRequestService::*;
    let request = ConfirmedRequest::decode(reader, buf)?;
    let choice = match request.service {
        ReadProperty(_) => ConfirmedServiceChoice::ReadProperty,
        ReadPropertyMultiple(_) => ConfirmedServiceChoice::ReadPropMultiple,
        SubscribeCov(_) => ConfirmedServiceChoice::SubscribeCov,
        WriteProperty(_) => ConfirmedServiceChoice::WriteProperty,
        ReadRange(_) => ConfirmedServiceChoice::ReadRange,
    };
    Ok(Header::Request {
        segments: request.max_segments as u8 >> 4,
        size: request.max_adpu as u8,
        id: request.invoke_id,
        choice: choice as u8,
    })
}

fn complex(reader: &mut Reader, buf: &[u8]) -> Result<Header, Error> {
    let ack = ComplexAck::decode(reader, buf)?;
    let choice = match ack.service {
        ComplexAckService::ReadProperty(_) => ConfirmedServiceChoice::ReadProperty,
        ComplexAckService::ReadPropertyMultiple(_) => ConfirmedServiceChoice::ReadPropMultiple,
        ComplexAckService::ReadRange(_) => ConfirmedServiceChoice::ReadRange,
    };
    Ok(Header::Complex { id: ack.invoke_id, choice: choice as u8 })
}

// Writes a header; none where the Rust has no such choice, service or writer, or no name for a nibble.
pub fn write(header: Header, writer: &mut Writer) -> Option<()> {
    match header {
        Header::Request { segments, size, id, choice } => {
            if segments > 7 || size > 5 {
                return None;
            }
            let mut request = ConfirmedRequest::new(id, request_service(choice)?);
            request.max_segments = (segments << 4).into();
            request.max_adpu = size.into();
            request.encode(writer);
        }
        Header::Simple { id, choice } => {
            let service_choice = choice.try_into().ok()?;
            SimpleAck { invoke_id: id, service_choice }.encode(writer);
        }
        Header::Complex { id, choice } => {
            ComplexAck { invoke_id: id, service: complex_service(choice)? }.encode(writer);
        }
        Header::Segment { id, sequence, window } => {
            SegmentAck { invoke_id: id, sequence_num: sequence, proposed_window_size: window }
                .encode(writer);
        }
        Header::Error { .. } | Header::Reject { .. } | Header::Abort { .. } => return None,
    }
    Some(())
}

fn request_service(choice: u8) -> Option<ConfirmedRequestService<'static>> {
    Some(match choice {
        5 => ConfirmedRequestService::SubscribeCov(Default::default()),
        12 => ConfirmedRequestService::ReadProperty(Default::default()),
        14 => ConfirmedRequestService::ReadPropertyMultiple(Default::default()),
        15 => ConfirmedRequestService::WriteProperty(Default::default()),
        26 => ConfirmedRequestService::ReadRange(Default::default()),
        _ => return None,
    })
}

fn complex_service(choice: u8) -> Option<ComplexAckService<'static>> {
    Some(match choice {
        12 => ComplexAckService::ReadProperty(Default::default()),
        14 => ComplexAckService::ReadPropertyMultiple(Default::default()),
        26 => ComplexAckService::ReadRange(Default::default()),
        _ => return None,
    })
}
