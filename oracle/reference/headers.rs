// Headers of confirmed services, from the control byte.
use crate::errors::{class_and_code, class_and_code_bytes};
use crate::reading::byte;
use crate::refusal::{refuse, Refusal};
use crate::tags::LongBlockTags;
use protocol::Header;

pub const LAST_CHOICE: u8 = 33;

pub fn header(long: LongBlockTags, buf: &[u8], place: usize) -> Result<(Header, usize), Refusal> {
    let (control, next) = byte(buf, place)?;
    let kind = control / 16;
    let segmented = control / 8 % 2 == 1;
    match kind {
        0 | 3 if segmented => refuse(17, usize::from(control)),
        0 => request(buf, next),
        2 => {
            let (id, choice, next) = id_and_choice(buf, next)?;
            Ok((Header::Simple { id, choice }, next))
        }
        3 => {
            let (id, choice, next) = id_and_choice(buf, next)?;
            Ok((Header::Complex { id, choice }, next))
        }
        4 => {
            let (id, next) = byte(buf, next)?;
            let (sequence, next) = byte(buf, next)?;
            let (window, next) = byte(buf, next)?;
            Ok((Header::Segment { id, sequence, window }, next))
        }
        5 => {
            let (id, choice, next) = id_and_choice(buf, next)?;
            let ((class, code), next) = class_and_code(long, buf, next)?;
            Ok((Header::Error { id, choice, class, code }, next))
        }
        6 => {
            let (id, reason, next) = id_and_reason(buf, next)?;
            Ok((Header::Reject { id, reason }, next))
        }
        7 => {
            let (id, reason, next) = id_and_reason(buf, next)?;
            Ok((Header::Abort { server: control % 2 == 1, id, reason }, next))
        }
        _ => refuse(17, usize::from(control)),
    }
}

fn request(buf: &[u8], place: usize) -> Result<(Header, usize), Refusal> {
    let (nibbles, next) = byte(buf, place)?;
    let (id, choice, next) = id_and_choice(buf, next)?;
    Ok((Header::Request { segments: nibbles / 16, size: nibbles % 16, id, choice }, next))
}

fn id_and_choice(buf: &[u8], place: usize) -> Result<(u8, u8, usize), Refusal> {
    let (id, next) = byte(buf, place)?;
    let (choice, next) = byte(buf, next)?;
    if choice > LAST_CHOICE {
        return refuse(11, usize::from(choice));
    }
    Ok((id, choice, next))
}

fn id_and_reason(buf: &[u8], place: usize) -> Result<(u8, u8, usize), Refusal> {
    let (id, next) = byte(buf, place)?;
    let (reason, next) = byte(buf, next)?;
    Ok((id, reason, next))
}

// The bytes of a header, or 12 for a nibble, or 11 for a choice.
pub fn header_bytes(header: Header) -> Result<Vec<u8>, Refusal> {
    if let Header::Request { segments, size, .. } = header {
        if segments > 15 || size > 15 {
            return refuse(12, 0);
        }
    }
    let (bytes, choice) = match header {
        Header::Request { segments, size, id, choice } => {
            let control = if segments == 0 { 0 } else { 2 };
            (vec![control, segments * 16 + size, id, choice], choice)
        }
        Header::Simple { id, choice } => (vec![0x20, id, choice], choice),
        Header::Complex { id, choice } => (vec![0x30, id, choice], choice),
        Header::Segment { id, sequence, window } => (vec![0x40, id, sequence, window], 0),
        Header::Error { id, choice, class, code } => {
            ([vec![0x50, id, choice], class_and_code_bytes(class, code)].concat(), choice)
        }
        Header::Reject { id, reason } => (vec![0x60, id, reason], 0),
        Header::Abort { server, id, reason } => (vec![0x70 + u8::from(server), id, reason], 0),
    };
    if choice > LAST_CHOICE {
        return refuse(11, usize::from(choice));
    }
    Ok(bytes)
}
