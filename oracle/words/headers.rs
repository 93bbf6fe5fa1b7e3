//! Headers of the crate: as the answers print them, and as a request names them.
use thaolisem::*;

/// Kind and fields.
pub fn printed(header: Header) -> String {
    match header {
        Header::ConfirmedRequest(x) => {
            let choice = x.service_choice as u8;
            format!("request {} {} {} {choice}", x.max_segments, x.max_adpu, x.invoke_id)
        }
        Header::SimpleAck(x) => format!("simple {} {}", x.invoke_id, x.service_choice as u8),
        Header::ComplexAck(x) => format!("complex {} {}", x.invoke_id, x.service_choice as u8),
        Header::SegmentAck(x) => {
            format!("segment {} {} {}", x.invoke_id, x.sequence_num, x.proposed_window_size)
        }
        Header::ConfirmedBacnetError(x) => {
            let choice = x.service_choice as u8;
            format!("error {} {choice} {} {}", x.invoke_id, x.error_class, x.error_code)
        }
        Header::Reject(x) => format!("reject {} {}", x.invoke_id, x.reason),
        Header::Abort(x) => format!("abort {} {} {}", u8::from(x.server), x.invoke_id, x.reason),
    }
}

/// The crate's header; none where it has no name for the service choice.
pub fn named(header: &protocol::Header) -> Option<Header> {
    let choice = |number: u8| ConfirmedServiceChoice::try_from(number).ok();
    Some(match *header {
        protocol::Header::Request { segments, size, id, choice: number } => {
            Header::ConfirmedRequest(ConfirmedRequest {
                max_segments: segments,
                max_adpu: size,
                invoke_id: id,
                service_choice: choice(number)?,
            })
        }
        protocol::Header::Simple { id, choice: number } => {
            Header::SimpleAck(SimpleAck { invoke_id: id, service_choice: choice(number)? })
        }
        protocol::Header::Complex { id, choice: number } => {
            Header::ComplexAck(ComplexAck { invoke_id: id, service_choice: choice(number)? })
        }
        protocol::Header::Segment { id, sequence, window } => Header::SegmentAck(SegmentAck {
            invoke_id: id,
            sequence_num: sequence,
            proposed_window_size: window,
        }),
        protocol::Header::Error { id, choice: number, class, code } => {
            Header::ConfirmedBacnetError(ConfirmedBacnetError {
                invoke_id: id,
                service_choice: choice(number)?,
                error_class: class,
                error_code: code,
            })
        }
        protocol::Header::Reject { id, reason } => Header::Reject(Reject { invoke_id: id, reason }),
        protocol::Header::Abort { server, id, reason } => {
            Header::Abort(Abort { server, invoke_id: id, reason })
        }
    })
}
