// Writing: the bytes of what is to be written, and the order of a writer's refusals.
use crate::headers::header_bytes;
use crate::integers::{signed_bytes, unsigned_bytes};
use crate::reading::LONGEST;
use crate::refusal::{refuse, Refusal};
use crate::tags::{application, context, tag_bytes};
use crate::utf8;
use crate::values::{one_double_nan, one_real_nan};
use protocol::{Class, Tag, TagName, Value, Write};

// Writes at a place of a buffer and answers the new place: 1, 2, then 12, 11 and 10, then 13.
pub fn write(what: &Write, buf: &mut [u8], place: usize) -> Result<usize, Refusal> {
    if buf.len() > LONGEST {
        return refuse(1, buf.len());
    }
    if lent(what).len() > LONGEST {
        return refuse(1, lent(what).len());
    }
    if place > buf.len() {
        return refuse(2, place);
    }
    let bytes = bytes(what)?;
    let next = place + bytes.len();
    match buf.get_mut(place..next) {
        Some(room) => room.copy_from_slice(&bytes),
        None => return refuse(13, bytes.len()),
    }
    Ok(next)
}

// The content that the caller lends.
pub fn lent(what: &Write) -> &[u8] {
    match what {
        Write::Extend(content) => content,
        Write::Value(Value::Text(content) | Value::Octets(content) | Value::Bits(_, content)) => {
            content
        }
        _ => &[],
    }
}

// The bytes to write, or 12, 11 or 10.
pub fn bytes(what: &Write) -> Result<Vec<u8>, Refusal> {
    Ok(match what {
        Write::Push(byte) => vec![*byte],
        Write::Extend(content) => content.clone(),
        Write::Tag(tag) => {
            let block = matches!(tag.name.class, Class::Opening | Class::Closing);
            if block && tag.value != 0 {
                return refuse(12, 0);
            }
            tag_bytes(*tag)
        }
        Write::Opening(number) => block_bytes(Class::Opening, *number),
        Write::Closing(number) => block_bytes(Class::Closing, *number),
        Write::Bool(number, value) => item(context(*number, 1), &[u8::from(*value)]),
        Write::Unsigned(number, value) => integer(2, *number, &unsigned_bytes(*value)),
        Write::Signed(number, value) => integer(3, *number, &signed_bytes(*value)),
        Write::Enumerated(number, value) => integer(9, *number, &unsigned_bytes(*value)),
        Write::Value(value) => value_bytes(value)?,
        Write::Header(header) => header_bytes(*header)?,
    })
}

fn block_bytes(class: Class, number: u8) -> Vec<u8> {
    tag_bytes(Tag { name: TagName { class, number }, value: 0 })
}

// A tag and its content.
fn item(tag: Tag, content: &[u8]) -> Vec<u8> {
    [&tag_bytes(tag), content].concat()
}

// An integer under its application tag or under a context number.
fn integer(kind: u8, number: Option<u8>, content: &[u8]) -> Vec<u8> {
    let len = content.len() as u32;
    item(number.map_or(application(kind, len), |number| context(number, len)), content)
}

// A content under an application tag of its length.
fn under(kind: u8, content: &[u8]) -> Vec<u8> {
    item(application(kind, content.len() as u32), content)
}

// The bytes of a value, or 12, or 10 for a text.
fn value_bytes(value: &Value) -> Result<Vec<u8>, Refusal> {
    Ok(match value {
        Value::Boolean(value) => item(application(1, u32::from(*value)), &[]),
        Value::Real(bits) => under(4, &one_real_nan(*bits).to_be_bytes()),
        Value::Double(bits) => under(4, &one_double_nan(*bits).to_be_bytes()),
        Value::Date { year: year @ 1900..=2155, rest: [month, day, weekday] } => {
            under(10, &[(year - 1900) as u8, *month, *day, *weekday])
        }
        Value::Date { .. } => return refuse(12, 0),
        Value::Time(bytes) => under(11, bytes),
        Value::ObjectId { kind, instance } if *kind <= 1023 && *instance <= 4_194_303 => {
            under(12, &(u32::from(*kind) * 4_194_304 + instance).to_be_bytes())
        }
        Value::ObjectId { .. } => return refuse(12, 0),
        Value::Text(text) => {
            utf8::check(text)?;
            under(7, &[&[0], &text[..]].concat())
        }
        Value::Octets(content) => under(6, content),
        Value::Bits(unused, bits) if *unused > 7 || (*unused != 0 && bits.is_empty()) => {
            return refuse(12, 0)
        }
        Value::Bits(unused, bits) => under(8, &[&[*unused], &bits[..]].concat()),
        Value::Enumerated(value) => integer(9, None, &unsigned_bytes(u64::from(*value))),
        Value::Unsigned(value) => integer(2, None, &unsigned_bytes(*value)),
        Value::Signed(value) => integer(3, None, &signed_bytes(*value)),
    })
}
