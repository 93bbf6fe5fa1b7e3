//! Writes, asked of the crate.
use crate::{headers, named, raw, refused};
use protocol::{put_hex, Write};
use thaolisem::*;

/// What a write answers, with the whole buffer.
pub fn answer(what: &Write, place: usize, capacity: usize) -> String {
    let mut buf = vec![0xAA; capacity];
    let mut writer = Writer { buf: &mut buf, index: place };
    let mut answer = match write(what, &mut writer) {
        Ok(()) => format!("ok {} ", writer.index),
        Err(_) if writer.index != place => "refused and the writer moved ".to_string(),
        Err(refusal) => format!("{} ", refused(refusal)),
    };
    put_hex(&buf, &mut answer);
    answer
}

fn write(what: &Write, writer: &mut Writer) -> Result<(), Refusal> {
    match what {
        Write::Push(byte) => writer.push(*byte),
        Write::Extend(bytes) => writer.extend_from_slice(bytes),
        Write::Tag(tag) => Tag::new(named(tag.name), tag.value).encode(writer),
        Write::Opening(number) => encode_opening_tag(writer, *number),
        Write::Closing(number) => encode_closing_tag(writer, *number),
        Write::Bool(number, value) => encode_context_bool(writer, *number, *value),
        Write::Unsigned(context, value) => encode_unsigned(writer, *context, *value),
        Write::Signed(context, value) => encode_signed(writer, *context, *value),
        Write::Enumerated(context, value) => encode_enumerated(writer, *value, *context),
        Write::Value(value) => match named_value(value) {
            Ok(value) => value.encode(writer),
            Err(text) => raw::text(text, writer),
        },
        Write::Header(header) => match headers::named(header) {
            Some(header) => header.encode(writer),
            None => raw::header(*header, writer),
        },
    }
}

/// The crate's value; or the bytes of a text that no `str` can hold.
fn named_value(value: &protocol::Value) -> Result<ApplicationDataValue<'_>, &[u8]> {
    Ok(match value {
        protocol::Value::Boolean(x) => ApplicationDataValue::Boolean(*x),
        protocol::Value::Real(bits) => ApplicationDataValue::Real(f32::from_bits(*bits)),
        protocol::Value::Double(bits) => ApplicationDataValue::Double(f64::from_bits(*bits)),
        protocol::Value::Date { year, rest: [month, day, wday] } => {
            ApplicationDataValue::Date(Date { year: *year, month: *month, day: *day, wday: *wday })
        }
        protocol::Value::Time([hour, minute, second, hundredths]) => {
            let (hour, minute, second, hundredths) = (*hour, *minute, *second, *hundredths);
            ApplicationDataValue::Time(Time { hour, minute, second, hundredths })
        }
        protocol::Value::ObjectId { kind, instance } => {
            ApplicationDataValue::ObjectId(ObjectId { object_type: *kind, instance: *instance })
        }
        protocol::Value::Text(bytes) => {
            let inner = core::str::from_utf8(bytes).map_err(|_| &bytes[..])?;
            ApplicationDataValue::CharacterString(CharacterString { inner })
        }
        protocol::Value::Octets(inner) => ApplicationDataValue::OctetString(OctetString { inner }),
        protocol::Value::Bits(unused_bits, bits) => {
            ApplicationDataValue::BitString(BitString { unused_bits: *unused_bits, bits })
        }
        protocol::Value::Enumerated(x) => ApplicationDataValue::Enumerated(*x),
        protocol::Value::Unsigned(x) => ApplicationDataValue::UnsignedInt(*x),
        protocol::Value::Signed(x) => ApplicationDataValue::SignedInt(*x),
    })
}
