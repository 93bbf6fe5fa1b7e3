// Requests in numbers: the function's name, then its arguments in the order of the C header.
use protocol::{put_hex, Class, Header, Read, Request, TagName, Value, Write};

// The request, none for a script; a check of UTF-8 that was refused 1 or 2 is a read of no bytes there, as the check takes a whole text and no place.
pub fn asked(request: &Request, answer: &str) -> Option<String> {
    Some(match request {
        Request::Read { what: Read::Utf8, place, buf } => {
            if answer.starts_with("refused 1 ") || answer.starts_with("refused 2 ") {
                return Some(format!("read_slice 0 {} {place}", hex(buf)));
            }
            format!("check_utf8 {}", hex(&buf[*place..]))
        }
        Request::Read { what, place, buf } => format!("{} {} {place}", read(what), hex(buf)),
        Request::Write { what, place, capacity } => format!("{} @{capacity} {place}", write(what)),
        Request::Segments { .. } => return None,
    })
}

pub fn hex(bytes: &[u8]) -> String {
    let mut digits = String::new();
    put_hex(bytes, &mut digits);
    digits
}

// The number of a class.
fn class(class: Class) -> u8 {
    match class {
        Class::Application => 1,
        Class::Context => 2,
        Class::Opening => 3,
        Class::Closing => 4,
    }
}

// The name of a read, and what is asked before the slice and the place.
fn read(what: &Read) -> String {
    let tag = |name: &TagName| format!("{} {}", class(name.class), name.number);
    match what {
        Read::Byte => "read_byte".to_string(),
        Read::Bytes(count) => format!("read_bytes {count}"),
        Read::Slice(len) => format!("read_slice {len}"),
        Read::Part(len) => format!("part {len}"),
        Read::Unsigned(len) => format!("decode_unsigned {len}"),
        Read::Signed(len) => format!("decode_signed {len}"),
        Read::Tag => "decode_tag".to_string(),
        Read::Expect(name) => format!("decode_expected {}", tag(name)),
        Read::ExpectNumber(name) => format!("expect_number {}", tag(name)),
        Read::ExpectValue(value) => format!("expect_value {value}"),
        Read::Body { allowance } => format!("get_tagged_body {allowance}"),
        Read::BodyFor { number, allowance } => {
            format!("get_tagged_body_for_tag {number} {allowance}")
        }
        Read::OptionalBody { number, allowance } => {
            format!("get_optional_tagged_body {number} {allowance}")
        }
        Read::Walk => "walk".to_string(),
        Read::Value => "decode_value".to_string(),
        Read::Header => "decode_header".to_string(),
        Read::Utf8 => "check_utf8".to_string(),
    }
}

// The name of a write, and what is asked before the buffer and the place.
fn write(what: &Write) -> String {
    // the class and number that an integer is written under: application, whose number is not read, or context
    let under = |number: &Option<u8>| match number {
        None => "1 0".to_string(),
        Some(number) => format!("2 {number}"),
    };
    match what {
        Write::Push(byte) => format!("push {byte}"),
        Write::Extend(content) => format!("extend_from_slice {}", hex(content)),
        Write::Tag(tag) => {
            format!("encode_tag {} {} {}", class(tag.name.class), tag.name.number, tag.value)
        }
        Write::Opening(number) => format!("encode_opening_tag {number}"),
        Write::Closing(number) => format!("encode_closing_tag {number}"),
        Write::Bool(number, value) => format!("encode_context_bool {number} {}", u8::from(*value)),
        Write::Unsigned(number, value) => format!("encode_unsigned {} {value}", under(number)),
        Write::Signed(number, value) => format!("encode_signed {} {value}", under(number)),
        Write::Enumerated(number, value) => format!("encode_enumerated {} {value}", under(number)),
        Write::Value(value) => encode_value(value),
        Write::Header(header) => encode_header(header),
    }
}

fn encode_value(value: &Value) -> String {
    let none: &[u8] = &[];
    let (case, [a, b, c, d], content): (u8, [u64; 4], &[u8]) = match value {
        Value::Boolean(value) => (1, [u64::from(*value), 0, 0, 0], none),
        Value::Real(bits) => (2, [u64::from(*bits), 0, 0, 0], none),
        Value::Double(bits) => (3, [*bits, 0, 0, 0], none),
        Value::Date { year, rest: [month, day, weekday] } => {
            (4, [u64::from(*year), (*month).into(), (*day).into(), (*weekday).into()], none)
        }
        Value::Time(fields) => (5, fields.map(u64::from), none),
        Value::ObjectId { kind, instance } => {
            (6, [u64::from(*kind), u64::from(*instance), 0, 0], none)
        }
        Value::Text(content) => (7, [0; 4], content),
        Value::Octets(content) => (8, [0; 4], content),
        Value::Bits(unused, content) => (9, [u64::from(*unused), 0, 0, 0], content),
        Value::Enumerated(value) => (10, [u64::from(*value), 0, 0, 0], none),
        Value::Unsigned(value) => (11, [*value, 0, 0, 0], none),
        Value::Signed(value) => (12, [*value as u64, 0, 0, 0], none),
    };
    format!("encode_value {case} {a} {b} {c} {d} {}", hex(content))
}

fn encode_header(header: &Header) -> String {
    match header {
        Header::Request { segments, size, id, choice } => {
            format!("encode_header 0 {segments} {size} {id} {choice}")
        }
        Header::Simple { id, choice } => format!("encode_header 2 {id} {choice} 0 0"),
        Header::Complex { id, choice } => format!("encode_header 3 {id} {choice} 0 0"),
        Header::Segment { id, sequence, window } => {
            format!("encode_header 4 {id} {sequence} {window} 0")
        }
        Header::Error { id, choice, class, code } => {
            format!("encode_header 5 {id} {choice} {class} {code}")
        }
        Header::Reject { id, reason } => format!("encode_header 6 {id} {reason} 0 0"),
        Header::Abort { server, id, reason } => {
            format!("encode_header 7 {} {id} {reason} 0", u8::from(*server))
        }
    }
}
