//! Reads, asked of the crate.
use crate::{headers, named, printed, raw, refused};
use protocol::Read;
use thaolisem::*;

/// What a read from a place on answers; one that is refused, or finds a body absent, must not have moved the reader.
pub fn answer(what: &Read, buf: &[u8], place: usize) -> String {
    let mut reader = Reader { index: place, ..Reader::default() };
    let answer = match what {
        Read::Body { allowance } => {
            body(get_tagged_body_within(*allowance as usize, &mut reader, buf), &reader, buf)
        }
        Read::BodyFor { number, allowance } => {
            let allowance = *allowance as usize;
            let found = get_tagged_body_for_tag_within(allowance, &mut reader, buf, *number);
            body(found, &reader, buf)
        }
        Read::OptionalBody { number, allowance } => {
            let allowance = *allowance as usize;
            match get_optional_tagged_body_within(allowance, &mut reader, buf, *number) {
                Ok(None) => raw::absent(*number, allowance, buf, place),
                found => body(found.map(Option::unwrap), &reader, buf),
            }
        }
        Read::Walk => match walk(&reader, buf) {
            Ok(count) => format!("ok {count}"),
            Err(refusal) => format!("{} {}", refused(refusal), refusal.tags),
        },
        _ => match read(what, &mut reader, buf) {
            Ok(answer) => answer,
            Err(refusal) => refused(refusal),
        },
    };
    if !answer.starts_with("ok") && reader.index != place {
        return format!("{answer} and the reader moved");
    }
    answer
}

fn body(found: Result<Body, Refusal>, reader: &Reader, buf: &[u8]) -> String {
    match found {
        Ok(body) => {
            let (start, len) = place(body.view, buf);
            format!("ok {start} {len} {} {} {}", body.number, reader.index, body.tags)
        }
        Err(refusal) => format!("{} {}", refused(refusal), refusal.tags),
    }
}

/// Where a part of a buffer lies, and its length.
fn place(part: &[u8], buf: &[u8]) -> (usize, usize) {
    (part.as_ptr() as usize - buf.as_ptr() as usize, part.len())
}

/// The answer of a read that counts nothing.
fn read(what: &Read, reader: &mut Reader, buf: &[u8]) -> Result<String, Refusal> {
    let answer = match what {
        Read::Byte => format!("{:02x}", reader.read_byte(buf)?),
        Read::Bytes(2) => hex(&reader.read_bytes::<2>(buf)?),
        Read::Bytes(4) => hex(&reader.read_bytes::<4>(buf)?),
        Read::Bytes(_) => hex(&reader.read_bytes::<8>(buf)?),
        Read::Slice(len) => {
            let (start, len) = place(reader.read_slice(*len as usize, buf)?, buf);
            format!("{start} {len}")
        }
        Read::Unsigned(len) => decode_unsigned(*len, reader, buf)?.to_string(),
        Read::Signed(len) => decode_signed(*len, reader, buf)?.to_string(),
        Read::Tag => printed(Tag::decode(reader, buf)?),
        Read::Expect(name) => printed(Tag::decode_expected(reader, buf, named(*name))?),
        Read::ExpectNumber(name) => expected(reader, buf, |tag| tag.expect_number(named(*name)))?,
        Read::ExpectValue(value) => expected(reader, buf, |tag| tag.expect_value(*value))?,
        Read::Value => value(ApplicationDataValue::decode(reader, buf)?, buf),
        Read::Header => headers::printed(Header::decode(reader, buf)?),
        Read::Part(len) => {
            return Ok(format!("ok {}", hex(reader.read_slice(*len as usize, buf)?)))
        }
        _ => {
            let rest = buf.len().saturating_sub(reader.index);
            let text = reader.clone().read_slice(rest, buf)?;
            return check_utf8(text).map(|_| "ok".to_string());
        }
    };
    Ok(format!("ok {answer} {}", reader.index))
}

/// A tag read and then tested.
fn expected(
    reader: &mut Reader,
    buf: &[u8],
    test: impl FnOnce(&Tag) -> Result<(), Refusal>,
) -> Result<String, Refusal> {
    let mut ahead = reader.clone();
    test(&Tag::decode(&mut ahead, buf)?)?;
    *reader = ahead;
    Ok("-".to_string())
}

fn hex(bytes: &[u8]) -> String {
    let mut digits = String::new();
    protocol::put_hex(bytes, &mut digits);
    digits
}

fn value(value: ApplicationDataValue, buf: &[u8]) -> String {
    let part = |case: &str, part: &[u8]| format!("{case} {} {}", place(part, buf).0, part.len());
    match value {
        ApplicationDataValue::Boolean(x) => format!("Boolean {}", u8::from(x)),
        ApplicationDataValue::Real(x) => format!("Real {:08x}", x.to_bits()),
        ApplicationDataValue::Double(x) => format!("Double {:016x}", x.to_bits()),
        ApplicationDataValue::Date(Date { year, month, day, wday }) => {
            format!("Date {year} {month} {day} {wday}")
        }
        ApplicationDataValue::Time(Time { hour, minute, second, hundredths }) => {
            format!("Time {hour} {minute} {second} {hundredths}")
        }
        ApplicationDataValue::ObjectId(id) => {
            format!("ObjectId {} {}", id.object_type, id.instance)
        }
        ApplicationDataValue::CharacterString(x) => part("Text", x.inner.as_bytes()),
        ApplicationDataValue::OctetString(x) => part("Octets", x.inner),
        ApplicationDataValue::BitString(x) => part(&format!("Bits {}", x.unused_bits), x.bits),
        ApplicationDataValue::Enumerated(x) => format!("Enumerated {x}"),
        ApplicationDataValue::UnsignedInt(x) => format!("Unsigned {x}"),
        ApplicationDataValue::SignedInt(x) => format!("Signed {x}"),
    }
}
