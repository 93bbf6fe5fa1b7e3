// Rows that 01 keeps from the Rust: which of them an equal answer shows.
use protocol::{Read, Request, Value, Write};
use reference::tags::{tag, tag_bytes, LongBlockTags};
use reference::walk::walk;

pub fn row(request: &Request, answer: &str) -> Option<&'static str> {
    let mut words = answer.split(' ');
    if words.next() != Some("ok") {
        return None;
    }
    match request {
        Request::Read { what: Read::Tag, place, buf } => tag_row(&buf[*place..], answer),
        Request::Read { what: Read::Value, place, buf } => {
            value_row(words.next()?, words.next()?, words.nth(1), buf, *place)
        }
        Request::Read { what: Read::Body { .. } | Read::BodyFor { .. }, buf, .. } => {
            let start = words.next()?.parse().ok()?;
            let len: usize = words.next()?.parse().ok()?;
            let crosses = match walk(LongBlockTags::OpenAndClose, &buf[..start + len], start).0 {
                Err(refusal) => refusal.to_string().starts_with("refused 15 "),
                Ok(()) => false,
            };
            crosses.then_some("blocks crossing inside a body")
        }
        Request::Read { what: Read::Header, place, buf } => (buf[*place] > 0x40
            && words.next() == Some("segment"))
        .then_some("flag bits of a segment acknowledgement"),
        Request::Write { what: Write::Value(Value::Double(_)), .. } => {
            Some("Double under the Real tag")
        }
        _ => None,
    }
}

fn tag_row(bytes: &[u8], answer: &str) -> Option<&'static str> {
    if answer.starts_with("ok C 255 ") {
        return Some("context number 255");
    }
    let (tag, read) = tag(LongBlockTags::OpenAndClose, bytes, 0).ok()?;
    let shortest = tag_bytes(tag).len() + usize::from(bytes[0] >= 0xF8 && tag.name.number < 15);
    (shortest < read).then_some("overlong values")
}

fn value_row(
    case: &str,
    first: &str,
    third: Option<&str>,
    buf: &[u8],
    place: usize,
) -> Option<&'static str> {
    match case {
        "Double" => Some("Double under the Real tag"),
        "Date" if first == "2155" => Some("year byte 255"),
        "Boolean" => {
            let (tag, _) = tag(LongBlockTags::OpenAndClose, buf, place).ok()?;
            (tag.value > 1).then_some("Boolean above 1")
        }
        "Bits" => {
            let unused: u8 = first.parse().ok()?;
            let empty = third == Some("0");
            (unused > 7 || (unused > 0 && empty))
                .then_some("unused counts above 7 or with no bytes")
        }
        _ => None,
    }
}
