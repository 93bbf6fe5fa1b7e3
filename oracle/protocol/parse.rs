// A request read from its line; none where the answer is `unknown`.
use crate::request::{Class, Header, Read, Request, Tag, TagName, Value, Write};
use crate::scripts::script;
use crate::words::Words;

pub fn parse(line: &str) -> Option<Request> {
    let mut words = Words::of(line);
    let name = words.word()?;
    if let Some(script) = script(name) {
        return script(&mut words);
    }
    let request = match name.strip_prefix('w') {
        Some(what) if what != "alk" => {
            let what = write(what, &mut words)?;
            let (place, capacity) = (words.number()?, words.capacity()?);
            Request::Write { what, place, capacity }
        }
        _ => {
            let what = read(name, &mut words)?;
            let (place, buf) = (words.number()?, words.bytes()?);
            Request::Read { what, place, buf }
        }
    };
    words.done()?;
    Some(request)
}

fn read(name: &str, words: &mut Words) -> Option<Read> {
    Some(match name {
        "rbyte" => Read::Byte,
        "rbytes" => match words.word()? {
            "2" => Read::Bytes(2),
            "4" => Read::Bytes(4),
            "8" => Read::Bytes(8),
            _ => return None,
        },
        "rslice" => Read::Slice(words.number()?),
        "uns" => Read::Unsigned(words.number()?),
        "sig" => Read::Signed(words.number()?),
        "tag" => Read::Tag,
        "expect" => Read::Expect(tag_name(words)?),
        "expnum" => Read::ExpectNumber(tag_name(words)?),
        "expval" => Read::ExpectValue(words.number()?),
        "body" => Read::Body { allowance: words.number()? },
        "bodyfor" => Read::BodyFor { number: words.number()?, allowance: words.number()? },
        "opt" => Read::OptionalBody { number: words.number()?, allowance: words.number()? },
        "walk" => Read::Walk,
        "value" => Read::Value,
        "utf8" => Read::Utf8,
        "part" => Read::Part(words.number()?),
        "header" => Read::Header,
        _ => return None,
    })
}

fn write(name: &str, words: &mut Words) -> Option<Write> {
    Some(match name {
        "push" => Write::Push(byte(words)?),
        "ext" => Write::Extend(words.bytes()?),
        "tag" => Write::Tag(Tag { name: tag_name(words)?, value: words.number()? }),
        "open" => Write::Opening(words.number()?),
        "close" => Write::Closing(words.number()?),
        "bool" => Write::Bool(words.number()?, words.bit()?),
        "uns" => Write::Unsigned(words.context()?, words.number()?),
        "sig" => Write::Signed(words.context()?, words.number()?),
        "enum" => Write::Enumerated(words.context()?, words.number()?),
        "val" => Write::Value(value(words)?),
        _ => Write::Header(header(name, words)?),
    })
}

// A byte in two digits.
fn byte(words: &mut Words) -> Option<u8> {
    match words.bytes()?[..] {
        [byte] => Some(byte),
        _ => None,
    }
}

fn tag_name(words: &mut Words) -> Option<TagName> {
    let class = match words.word()? {
        "A" => Class::Application,
        "C" => Class::Context,
        "O" => Class::Opening,
        "X" => Class::Closing,
        _ => return None,
    };
    let number = words.number()?;
    if class == Class::Application && number > 15 {
        return None;
    }
    Some(TagName { class, number })
}

fn value(words: &mut Words) -> Option<Value> {
    Some(match words.word()? {
        "Boolean" => Value::Boolean(words.bit()?),
        "Real" => Value::Real(u32::from_be_bytes(words.bytes()?.try_into().ok()?)),
        "Double" => Value::Double(u64::from_be_bytes(words.bytes()?.try_into().ok()?)),
        "Date" => Value::Date {
            year: words.number()?,
            rest: [words.number()?, words.number()?, words.number()?],
        },
        "Time" => Value::Time([words.number()?, words.number()?, words.number()?, words.number()?]),
        "ObjectId" => Value::ObjectId { kind: words.number()?, instance: words.number()? },
        "Text" => Value::Text(words.bytes()?),
        "Octets" => Value::Octets(words.bytes()?),
        "Bits" => Value::Bits(words.number()?, words.bytes()?),
        "Enumerated" => Value::Enumerated(words.number()?),
        "Unsigned" => Value::Unsigned(words.number()?),
        "Signed" => Value::Signed(words.number()?),
        _ => return None,
    })
}

fn header(name: &str, words: &mut Words) -> Option<Header> {
    Some(match name {
        "req" => Header::Request {
            segments: words.number()?,
            size: words.number()?,
            id: words.number()?,
            choice: words.number()?,
        },
        "sim" => Header::Simple { id: words.number()?, choice: words.number()? },
        "com" => Header::Complex { id: words.number()?, choice: words.number()? },
        "seg" => Header::Segment {
            id: words.number()?,
            sequence: words.number()?,
            window: words.number()?,
        },
        "err" => Header::Error {
            id: words.number()?,
            choice: words.number()?,
            class: words.number()?,
            code: words.number()?,
        },
        "rej" => Header::Reject { id: words.number()?, reason: words.number()? },
        "abt" => {
            Header::Abort { server: words.bit()?, id: words.number()?, reason: words.number()? }
        }
        _ => return None,
    })
}
