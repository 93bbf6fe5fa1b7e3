// Where 01's domain of comparison ends, and what the Rust answers there if that is known.
use protocol::{Class, Header, Read, Request, Value, Write};
use reference::headers::LAST_CHOICE;
use reference::reading::LONGEST;
use reference::tags::{tag, LongBlockTags};
use reference::utf8;
use reference::writing::lent;

const NO_REJECT: &str = "the Rust has no reject";
const NO_ABORT: &str = "the Rust has no abort";

pub struct Outside {
    pub why: &'static str,
    pub answer: Option<String>,
}

fn because(why: &'static str) -> Option<Outside> {
    Some(Outside { why, answer: None })
}

fn answering(why: &'static str, answer: impl Into<String>) -> Option<Outside> {
    Some(Outside { why, answer: Some(answer.into()) })
}

// Why a request is outside, if it is; a body's allowance is spent or not as the Rust reads its tags.
pub fn outside(request: &Request, ordinary: &str) -> Option<Outside> {
    match request {
        Request::Read { what, place, buf } => {
            ends(buf.len(), *place, buf.len()).or_else(|| read(what, buf, *place, ordinary))
        }
        Request::Write { what, place, capacity } => {
            let longest = (*capacity).max(lent(what).len());
            ends(longest, *place, *capacity).or_else(|| write(what))
        }
        Request::Segments { .. } => answering("the Rust joins no segments", "none"),
    }
}

fn ends(longest: usize, place: usize, end: usize) -> Option<Outside> {
    if longest > LONGEST {
        return because("over 65,535 bytes");
    }
    if place > end {
        return because("place past the end");
    }
    None
}

fn read(what: &Read, buf: &[u8], place: usize, ordinary: &str) -> Option<Outside> {
    match what {
        Read::OptionalBody { .. } => answering("the Rust has no optional body", "none"),
        Read::Walk => answering("the Rust has no strict walk", "none"),
        Read::Body { allowance } | Read::BodyFor { allowance, .. }
            if *allowance < buf.len() as u64 =>
        {
            let spent = ordinary.starts_with("refused 14 ");
            let answer = (!spent).then(|| ordinary.to_string());
            Some(Outside { why: "allowance smaller than the buffer", answer })
        }
        Read::Value => match tag(LongBlockTags::Ordinary, buf, place) {
            Ok((tag, _)) if tag.name.class == Class::Application && tag.name.number == 12 => {
                answering("object identifier", "none")
            }
            _ => None,
        },
        Read::Header => header(&buf[place..]),
        _ => None,
    }
}

// A frame whose header the given Rust cannot read.
fn header(frame: &[u8]) -> Option<Outside> {
    let control = *frame.first()?;
    match (control >> 4, control & 8) {
        (0, 0) => {
            let nibbles = *frame.get(1)?;
            if !named(nibbles >> 4, nibbles & 15) {
                return because("header nibble without a name");
            }
            let choice = *frame.get(3)?;
            body_read(choice, &[12, 14, 15, 26])
        }
        (3, 0) => body_read(*frame.get(2)?, &[12, 14, 26]),
        (2, _) | (4, _) | (5, _) => None,
        (6, _) => answering(NO_REJECT, "none"),
        (7, _) => answering(NO_ABORT, "none"),
        (0, _) | (3, _) => answering("segment bit set", "none"),
        _ => answering("other PDU type", "none"),
    }
}

// Nibbles that the stand-ins name, after clause 20.1.2.
fn named(segments: u8, size: u8) -> bool {
    segments <= 7 && size <= 5
}

// A service whose body the Rust reads, or an answer before that.
fn body_read(choice: u8, services: &[u8]) -> Option<Outside> {
    if choice > LAST_CHOICE || services.contains(&choice) {
        return None;
    }
    answering("service without a body in the Rust", format!("unimplemented {choice}"))
}

fn write(what: &Write) -> Option<Outside> {
    match what {
        Write::Value(Value::ObjectId { .. }) => answering("object identifier", "none"),
        Write::Value(Value::Text(text)) if utf8::check(text).is_err() => {
            answering("text that the Rust cannot hold", "none")
        }
        Write::Header(Header::Request { segments, size, choice, .. }) => {
            if !named(*segments, *size) {
                return answering("header nibble without a name", "none");
            }
            body_written(*choice, &[5, 12, 14, 15, 26])
        }
        Write::Header(Header::Complex { choice, .. }) => body_written(*choice, &[12, 14, 26]),
        Write::Header(Header::Simple { choice, .. }) if *choice > LAST_CHOICE + 1 => {
            answering("choice that the Rust cannot hold", "none")
        }
        Write::Header(Header::Error { .. }) => answering("the Rust writes no error", "none"),
        Write::Header(Header::Reject { .. }) => answering(NO_REJECT, "none"),
        Write::Header(Header::Abort { .. }) => answering(NO_ABORT, "none"),
        _ => None,
    }
}

fn body_written(choice: u8, services: &[u8]) -> Option<Outside> {
    if services.contains(&choice) {
        return None;
    }
    answering("service without a body in the Rust", "none")
}
