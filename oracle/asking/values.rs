// Values, asked of the given Rust under PropPresentValue of an object that is not binary.
use crate::errors::refusal;
use crate::reading::lies;
use embedded_bacnet::application_protocol::primitives::data_value::{
    ApplicationDataValue, BitString, CharacterString, CustomBitStream, Date, Enumerated,
    OctetString, Time,
};
use embedded_bacnet::common::error::Error;
use embedded_bacnet::common::io::Reader;
use embedded_bacnet::common::object_id::{ObjectId, ObjectType};
use embedded_bacnet::common::property_id::PropertyId;
use embedded_bacnet::common::tag::Tag;
use protocol::Value;

pub fn read(reader: &mut Reader, buf: &[u8]) -> Option<String> {
    let place = reader.index;
    let object = ObjectId { object_type: ObjectType::ObjectAnalogInput };
    let property = PropertyId::PropPresentValue;
    match ApplicationDataValue::decode(&object, &property, reader, buf) {
        Ok(value) => Some(format!("ok {} {}", printed(&value, buf)?, reader.index)),
        Err(Error::InvalidValue(_)) => bad_text(buf, place),
        Err(error) => refusal(error, buf, place),
    }
}

// The Rust says only that a text is bad: the place is asked of from_utf8, on the bytes that the Rust gave it.
fn bad_text(buf: &[u8], place: usize) -> Option<String> {
    let mut reader = Reader { index: place, end: buf.len() };
    let tag = Tag::decode(&mut reader, buf).ok()?;
    let content = reader.read_slice(tag.value as usize, buf).ok()?;
    let bad = std::str::from_utf8(&content[1..]).err()?;
    Some(format!("refused 10 {}", bad.valid_up_to()))
}

fn printed(value: &ApplicationDataValue, buf: &[u8]) -> Option<String> {
    Some(match value {
        ApplicationDataValue::Boolean(value) => format!("Boolean {}", u8::from(*value)),
        ApplicationDataValue::Real(value) => format!("Real {:08x}", value.to_bits()),
        ApplicationDataValue::Double(value) => format!("Double {:016x}", value.to_bits()),
        ApplicationDataValue::Date(Date { year, month, day, wday }) => {
            format!("Date {year} {month} {day} {wday}")
        }
        ApplicationDataValue::Time(Time { hour, minute, second, hundredths }) => {
            format!("Time {hour} {minute} {second} {hundredths}")
        }
        ApplicationDataValue::CharacterString(text) => {
            format!("Text {}", lies(text.inner.as_bytes(), buf))
        }
        ApplicationDataValue::OctetString(octets) => format!("Octets {}", lies(octets.inner, buf)),
        ApplicationDataValue::BitString(BitString::Custom(bits)) => {
            format!("Bits {} {}", bits.unused_bits, lies(bits.bits, buf))
        }
        ApplicationDataValue::Enumerated(Enumerated::Unknown(value)) => {
            format!("Enumerated {value}")
        }
        ApplicationDataValue::UnsignedInt(value) => format!("Unsigned {value}"),
        ApplicationDataValue::SignedInt(value) => format!("Signed {value}"),
        _ => return None,
    })
}

// A value of the Rust; none for an object identifier and for a text that is not UTF-8.
pub fn value_of(value: &Value) -> Option<ApplicationDataValue<'_>> {
    Some(match value {
        Value::Boolean(value) => ApplicationDataValue::Boolean(*value),
        Value::Real(bits) => ApplicationDataValue::Real(f32::from_bits(*bits)),
        Value::Double(bits) => ApplicationDataValue::Double(f64::from_bits(*bits)),
        Value::Date { year, rest: [month, day, wday] } => {
            ApplicationDataValue::Date(Date { year: *year, month: *month, day: *day, wday: *wday })
        }
        Value::Time([hour, minute, second, hundredths]) => ApplicationDataValue::Time(Time {
            hour: *hour,
            minute: *minute,
            second: *second,
            hundredths: *hundredths,
        }),
        Value::ObjectId { .. } => return None,
        Value::Text(text) => {
            let text = std::str::from_utf8(text).ok()?;
            ApplicationDataValue::CharacterString(CharacterString::new(text))
        }
        Value::Octets(octets) => ApplicationDataValue::OctetString(OctetString::new(octets)),
        Value::Bits(unused, bits) => {
            ApplicationDataValue::BitString(BitString::Custom(CustomBitStream::new(*unused, bits)))
        }
        Value::Enumerated(value) => ApplicationDataValue::Enumerated(Enumerated::Unknown(*value)),
        Value::Unsigned(value) => ApplicationDataValue::UnsignedInt(*value),
        Value::Signed(value) => ApplicationDataValue::SignedInt(*value),
    })
}
