// Requests as the numbers that the archive takes.
use protocol::{Class, Header, TagName, Value};

pub fn named(name: TagName) -> (u8, u8) {
    let class = match name.class {
        Class::Application => 1,
        Class::Context => 2,
        Class::Opening => 3,
        Class::Closing => 4,
    };
    (class, name.number)
}

// The application tag of the integer's kind, or a context tag.
pub fn under(context: Option<u8>) -> (u8, u8) {
    context.map_or((1, 0), |number| (2, number))
}

// A value's case, its fields and its content.
pub fn value_fields(value: &Value) -> (u8, [u64; 4], &[u8]) {
    let one = |a: u64| [a, 0, 0, 0];
    match *value {
        Value::Boolean(value) => (1, one(value.into()), &[]),
        Value::Real(bits) => (2, one(bits.into()), &[]),
        Value::Double(bits) => (3, one(bits), &[]),
        Value::Date { year, rest: [b, c, d] } => {
            (4, [year.into(), b.into(), c.into(), d.into()], &[])
        }
        Value::Time(parts) => (5, parts.map(u64::from), &[]),
        Value::ObjectId { kind, instance } => (6, [kind.into(), instance.into(), 0, 0], &[]),
        Value::Text(ref text) => (7, one(0), text),
        Value::Octets(ref octets) => (8, one(0), octets),
        Value::Bits(unused, ref bits) => (9, one(unused.into()), bits),
        Value::Enumerated(value) => (10, one(value.into()), &[]),
        Value::Unsigned(value) => (11, one(value), &[]),
        Value::Signed(value) => (12, one(value as u64), &[]),
    }
}

pub fn header_fields(header: Header) -> (u8, [u64; 4]) {
    let bytes = |fields: [u8; 4]| fields.map(u64::from);
    match header {
        Header::Request { segments, size, id, choice } => (0, bytes([segments, size, id, choice])),
        Header::Simple { id, choice } => (2, bytes([id, choice, 0, 0])),
        Header::Complex { id, choice } => (3, bytes([id, choice, 0, 0])),
        Header::Segment { id, sequence, window } => (4, bytes([id, sequence, window, 0])),
        Header::Error { id, choice, class, code } => {
            (5, [id.into(), choice.into(), class.into(), code.into()])
        }
        Header::Reject { id, reason } => (6, bytes([id, reason, 0, 0])),
        Header::Abort { server, id, reason } => (7, bytes([server.into(), id, reason, 0])),
    }
}
