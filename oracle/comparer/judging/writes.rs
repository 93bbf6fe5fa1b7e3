// Rows of 01 that concern writing: the bytes that each says the Rust writes, and its panic where they have no room.
use crate::judging::Rust;
use protocol::{put_hex, Class, Header, Tag, Value, Write};
use reference::integers::{signed_bytes, unsigned_bytes};
use reference::tags::{application, context, tag_bytes};
use reference::values::{one_double_nan, one_real_nan};

type Rows = Vec<&'static str>;

pub fn rust(what: &Write, place: usize, capacity: usize, port: &str) -> Option<Rust> {
    let mut rows = Rows::new();
    let Some(bytes) = bytes(what, &mut rows) else {
        return Rust::panics("panic: year below 1900");
    };
    let next = place + bytes.len();
    if next <= capacity {
        let mut buf = vec![0xAA; capacity];
        buf[place..next].copy_from_slice(&bytes);
        let mut answer = format!("ok {next} ");
        put_hex(&buf, &mut answer);
        return Some(Rust { answer, rows });
    }
    if port.starts_with("refused 13 ") {
        rows.clear();
    }
    if !port.starts_with("ok ") {
        rows.push("panic: full writer");
    }
    Some(Rust { answer: "panic".to_string(), rows })
}

// The bytes that the Rust writes, and the rows by which they are others; none where it panics.
fn bytes(what: &Write, rows: &mut Rows) -> Option<Vec<u8>> {
    match what {
        Write::Tag(tag) => Some(tag_as_written(*tag, rows)),
        Write::Signed(number, value) => Some(signed(*number, *value, rows)),
        Write::Header(Header::Simple { id, choice: 34 }) => {
            rows.push("(j)");
            Some(vec![0x20, *id, 34])
        }
        Write::Value(value) => value_bytes(value, rows),
        _ => reference::writing::bytes(what).ok(),
    }
}

fn value_bytes(value: &Value, rows: &mut Rows) -> Option<Vec<u8>> {
    Some(match value {
        Value::Signed(value) => signed(None, *value, rows),
        Value::Date { year: 0..=1899, .. } => return None,
        Value::Date { year, rest: [month, day, weekday] } => {
            if *year > 2155 {
                rows.push("(i)");
            }
            under(10, &[(year - 1900) as u8, *month, *day, *weekday], rows)
        }
        Value::Real(bits) => {
            if one_real_nan(*bits) != *bits {
                rows.push("NaN");
            }
            under(4, &bits.to_be_bytes(), rows)
        }
        Value::Double(bits) => {
            if one_double_nan(*bits) != *bits {
                rows.push("NaN");
            }
            under(4, &bits.to_be_bytes(), rows)
        }
        Value::Text(text) => under(7, &[&[0], &text[..]].concat(), rows),
        Value::Octets(content) => under(6, content, rows),
        Value::Bits(unused, bits) => {
            if *unused != 0 {
                rows.push("(e)");
            }
            under(8, &[&[0], &bits[..]].concat(), rows)
        }
        _ => return reference::writing::bytes(&Write::Value(value.clone())).ok(),
    })
}

fn under(kind: u8, content: &[u8], rows: &mut Rows) -> Vec<u8> {
    let mut bytes = tag_as_written(application(kind, content.len() as u32), rows);
    bytes.extend(content);
    bytes
}

// (c): the Rust writes a non-negative value in its shortest unsigned form.
fn signed(number: Option<u8>, value: i64, rows: &mut Rows) -> Vec<u8> {
    let mut content = signed_bytes(value);
    if value >= 0 && unsigned_bytes(value as u64).len() < content.len() {
        rows.push("(c)");
        content.remove(0);
    }
    let len = content.len() as u32;
    let tag = number.map_or(application(3, len), |number| context(number, len));
    [tag_bytes(tag), content].concat()
}

// (d): the Rust mixes a value into an opening or closing tag.
fn tag_as_written(tag: Tag, rows: &mut Rows) -> Vec<u8> {
    let mut bytes = tag_bytes(Tag { value: 0, ..tag });
    if matches!(tag.name.class, Class::Opening | Class::Closing) && tag.value != 0 {
        rows.push("(d)");
    }
    bytes[0] |= tag.value.min(5) as u8;
    long_value(tag.value, &mut bytes, rows);
    bytes
}

// (a): the marker is the value's low byte; (b): 65,535 takes four bytes.
fn long_value(value: u32, bytes: &mut Vec<u8>, rows: &mut Rows) {
    let low = value as u8;
    match value {
        0..=4 => {}
        5..=253 => bytes.push(low),
        254..=65_534 => {
            if low != 254 {
                rows.push("(a)");
            }
            bytes.push(low);
            bytes.extend((value as u16).to_be_bytes());
        }
        _ => {
            if value == 65_535 {
                rows.push("(b)");
            } else if low != 255 {
                rows.push("(a)");
            }
            bytes.push(low);
            bytes.extend(value.to_be_bytes());
        }
    }
}
