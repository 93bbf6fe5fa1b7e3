// Reads, asked of the given Rust.
use crate::errors::{number_of, printed, refusal};
use crate::{headers, values};
use embedded_bacnet::common::error::Error;
use embedded_bacnet::common::io::Reader;
use embedded_bacnet::common::tag::Tag;
use embedded_bacnet::simple::{
    decode_signed, decode_unsigned, get_tagged_body, get_tagged_body_for_tag,
};
use protocol::{put_hex, Read};

pub fn ask(what: &Read, buf: &[u8], place: usize) -> Option<String> {
    let mut reader = Reader { index: place, end: buf.len() };
    match what {
        Read::OptionalBody { .. } | Read::Walk => None,
        Read::Utf8 => Some(utf8(&buf[place..])),
        Read::Value => values::read(&mut reader, buf),
        Read::Header => headers::read(&mut reader, buf),
        _ => match asked(what, &mut reader, buf) {
            Ok(answer) => Some(answer),
            Err(error) => refusal(error, buf, place),
        },
    }
}

fn asked(what: &Read, reader: &mut Reader, buf: &[u8]) -> Result<String, Error> {
    let answer = match what {
        Read::Byte => format!("{:02x}", reader.read_byte(buf)?),
        Read::Bytes(2) => hex(&reader.read_bytes::<2>(buf)?),
        Read::Bytes(4) => hex(&reader.read_bytes::<4>(buf)?),
        Read::Bytes(_) => hex(&reader.read_bytes::<8>(buf)?),
        Read::Slice(len) => lies(reader.read_slice(*len as usize, buf)?, buf),
        Read::Part(len) => {
            return Ok(format!("ok {}", hex(reader.read_slice(*len as usize, buf)?)))
        }
        Read::Unsigned(len) => decode_unsigned(*len, reader, buf)?.to_string(),
        Read::Signed(len) => decode_signed(*len, reader, buf)?.to_string(),
        Read::Tag => printed(&Tag::decode(reader, buf)?),
        Read::Expect(name) => printed(&Tag::decode_expected(reader, buf, number_of(*name), "")?),
        Read::ExpectNumber(name) => {
            Tag::decode(reader, buf)?.expect_number("", number_of(*name))?;
            "-".to_string()
        }
        Read::ExpectValue(value) => {
            Tag::decode(reader, buf)?.expect_value("", *value)?;
            "-".to_string()
        }
        Read::Body { .. } => {
            let (body, number) = get_tagged_body(reader, buf)?;
            format!("{} {number}", lies(body, buf))
        }
        Read::BodyFor { number, .. } => {
            let body = get_tagged_body_for_tag(reader, buf, *number, "")?;
            format!("{} {number}", lies(body, buf))
        }
        Read::OptionalBody { .. } | Read::Walk | Read::Utf8 | Read::Value | Read::Header => {
            unreachable!()
        }
    };
    Ok(format!("ok {answer} {}", reader.index))
}

// Where a part of the buffer lies: place and length.
pub fn lies(part: &[u8], buf: &[u8]) -> String {
    let place = part.as_ptr() as usize - buf.as_ptr() as usize;
    format!("{place} {}", part.len())
}

fn hex(bytes: &[u8]) -> String {
    let mut digits = String::new();
    put_hex(bytes, &mut digits);
    digits
}

// The function of Rust's own library that the given Rust calls.
fn utf8(text: &[u8]) -> String {
    match std::str::from_utf8(text) {
        Ok(_) => "ok".to_string(),
        Err(bad) => format!("refused 10 {}", bad.valid_up_to()),
    }
}
