// Values read: the answer's case and fields, and the place after the value.
use crate::integers::{enumerated, number, signed, unsigned};
use crate::reading::{byte, slice};
use crate::refusal::{refuse, Refusal};
use crate::tags::{tag, LongBlockTags};
use crate::utf8;
use protocol::Class;

// The one NaN of a Real and of a Double: their payloads are not kept.
pub const REAL_NAN: u32 = 0x7FC0_0000;
pub const DOUBLE_NAN: u64 = 0x7FF8_0000_0000_0000;

pub fn value(long: LongBlockTags, buf: &[u8], place: usize) -> Result<(String, usize), Refusal> {
    let (tag, next) = tag(long, buf, place)?;
    if tag.name.class != Class::Application {
        return Err(Refusal::Tag(8, tag));
    }
    let len = tag.value;
    match tag.name.number {
        1 => Ok((format!("Boolean {}", u8::from(len > 0)), next)),
        2 => unsigned(len, buf, next).map(|(value, next)| (format!("Unsigned {value}"), next)),
        3 => signed(len, buf, next).map(|(value, next)| (format!("Signed {value}"), next)),
        4 => real(len, buf, next),
        6 => octets(len, buf, next),
        7 => text(len, buf, next),
        8 => bits(len, buf, next),
        9 => enumerated(len, buf, next).map(|(value, next)| (format!("Enumerated {value}"), next)),
        10 => date(len, buf, next),
        11 => time(len, buf, next),
        12 => object_id(len, buf, next),
        _ => Err(Refusal::Tag(8, tag)),
    }
}

fn real(len: u32, buf: &[u8], place: usize) -> Result<(String, usize), Refusal> {
    if len != 4 && len != 8 {
        return refuse(7, len as usize);
    }
    let (bytes, next) = slice(len as usize, buf, place)?;
    let bits = number(bytes) as u64;
    let answer = if len == 4 {
        format!("Real {:08x}", one_real_nan(bits as u32))
    } else {
        format!("Double {:016x}", one_double_nan(bits))
    };
    Ok((answer, next))
}

pub fn one_real_nan(bits: u32) -> u32 {
    let is_nan = bits << 1 > 0xFF00_0000;
    if is_nan {
        REAL_NAN
    } else {
        bits
    }
}

pub fn one_double_nan(bits: u64) -> u64 {
    let is_nan = bits << 1 > 0xFFE0_0000_0000_0000;
    if is_nan {
        DOUBLE_NAN
    } else {
        bits
    }
}

fn octets(len: u32, buf: &[u8], place: usize) -> Result<(String, usize), Refusal> {
    let (_, next) = slice(len as usize, buf, place)?;
    Ok((format!("Octets {place} {len}"), next))
}

fn text(len: u32, buf: &[u8], place: usize) -> Result<(String, usize), Refusal> {
    if len == 0 {
        return refuse(7, 0);
    }
    let (set, start) = byte(buf, place)?;
    if set != 0 {
        return refuse(9, usize::from(set));
    }
    let (bytes, next) = slice(len as usize - 1, buf, start)?;
    utf8::check(bytes)?;
    Ok((format!("Text {start} {}", len - 1), next))
}

fn bits(len: u32, buf: &[u8], place: usize) -> Result<(String, usize), Refusal> {
    if len == 0 {
        return refuse(7, 0);
    }
    let (unused, start) = byte(buf, place)?;
    let (_, next) = slice(len as usize - 1, buf, start)?;
    Ok((format!("Bits {unused} {start} {}", len - 1), next))
}

fn date(len: u32, buf: &[u8], place: usize) -> Result<(String, usize), Refusal> {
    let (bytes, next) = four(len, buf, place)?;
    let year = u32::from(bytes[0]) + 1900;
    Ok((format!("Date {year} {} {} {}", bytes[1], bytes[2], bytes[3]), next))
}

// A time's bytes are single ones, so that a 3 carries the end.
fn time(len: u32, buf: &[u8], place: usize) -> Result<(String, usize), Refusal> {
    if len != 4 {
        return refuse(7, len as usize);
    }
    let (hour, next) = byte(buf, place)?;
    let (minute, next) = byte(buf, next)?;
    let (second, next) = byte(buf, next)?;
    let (hundredths, next) = byte(buf, next)?;
    Ok((format!("Time {hour} {minute} {second} {hundredths}"), next))
}

fn object_id(len: u32, buf: &[u8], place: usize) -> Result<(String, usize), Refusal> {
    let (bytes, next) = four(len, buf, place)?;
    let all = number(bytes);
    Ok((format!("ObjectId {} {}", all / 4_194_304, all % 4_194_304), next))
}

// The four bytes of a content of length 4, else 7.
fn four(len: u32, buf: &[u8], place: usize) -> Result<(&[u8], usize), Refusal> {
    if len != 4 {
        return refuse(7, len as usize);
    }
    slice(4, buf, place)
}
