// Rows of 01 that concern reading: what each says that the Rust answers.
use crate::judging::{errors, Rust};
use protocol::{Class, Header, Read};
use reference::integers::{number, unsigned};
use reference::reading::{byte, slice};
use reference::tags::{tag, LongBlockTags};
use reference::values::{one_double_nan, one_real_nan};

// What the Rust must answer: by another row where one applies, else by (k), the second reading's answer with long block tags as ordinary ones.
pub fn rust(what: &Read, buf: &[u8], place: usize, ordinary: &str) -> Option<Rust> {
    let by_row = match what {
        Read::Unsigned(0) | Read::Signed(0) => Rust::panics("panic: integer of length 0"),
        Read::Value => value(buf, place),
        Read::Header if buf.get(place).is_some_and(|control| control >> 4 == 5) => {
            Some(errors::rust(buf, place))
        }
        Read::Header => marker_choice(buf, place),
        _ => None,
    };
    by_row.or_else(|| Rust::by("(k)", ordinary.to_string()))
}

fn value(buf: &[u8], place: usize) -> Option<Rust> {
    let (tag, next) = tag(LongBlockTags::Ordinary, buf, place).ok()?;
    if tag.name.class != Class::Application {
        return None;
    }
    match (tag.name.number, tag.value) {
        (2 | 3 | 9, 0) => Rust::panics("panic: integer of length 0"),
        (7 | 8, 0) if next == buf.len() => Rust::by("(h)", format!("refused 3 {next}")),
        (7 | 8, 0) => Rust::panics("panic: text or bit string of length 0"),
        (7, _) if byte(buf, next).is_ok_and(|(set, _)| set != 0) => {
            Rust::panics("panic: other character set")
        }
        (4, 4 | 8) => nan(tag.value, buf, next),
        (9, len) => cut_enumerated(len, buf, next),
        (10, len) if len != 4 => date_of_any_length(buf, next),
        _ => None,
    }
}

// (f): the Rust reads four bytes, whatever the date's length.
fn date_of_any_length(buf: &[u8], place: usize) -> Option<Rust> {
    let answer = match slice(4, buf, place) {
        Ok((bytes, next)) => {
            let year = 1900 + u32::from(bytes[0]);
            format!("ok Date {year} {} {} {} {next}", bytes[1], bytes[2], bytes[3])
        }
        Err(refusal) => refusal.to_string(),
    };
    Rust::by("(f)", answer)
}

// (g): the Rust keeps the low 32 bits.
fn cut_enumerated(len: u32, buf: &[u8], place: usize) -> Option<Rust> {
    let (value, next) = unsigned(len, buf, place).ok()?;
    if value >> 32 == 0 {
        return None;
    }
    Rust::by("(g)", format!("ok Enumerated {} {next}", value as u32))
}

// The Rust keeps a NaN's bits.
fn nan(len: u32, buf: &[u8], place: usize) -> Option<Rust> {
    let (bytes, next) = slice(len as usize, buf, place).ok()?;
    let bits = number(bytes) as u64;
    if len == 4 && one_real_nan(bits as u32) != bits as u32 {
        return Rust::by("NaN", format!("ok Real {bits:08x} {next}"));
    }
    if len == 8 && one_double_nan(bits) != bits {
        return Rust::by("NaN", format!("ok Double {bits:016x} {next}"));
    }
    None
}

// (j): the Rust knows the choice 34, and has no service for it.
fn marker_choice(buf: &[u8], place: usize) -> Option<Rust> {
    let frame = &buf[place..];
    let control = *frame.first()?;
    let choice_at = if control >> 4 == 0 { 3 } else { 2 };
    if control >> 4 == 4 || *frame.get(choice_at)? != 34 {
        return None;
    }
    let answer = if control >> 4 == 2 {
        format!("ok {} {}", Header::Simple { id: frame[1], choice: 34 }, place + 3)
    } else {
        "unimplemented 34".to_string()
    };
    Rust::by("(j)", answer)
}
