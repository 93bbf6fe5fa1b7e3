// Answers in numbers, from the words of an answer; none where those words are not an answer to the request.
use crate::asked::hex;
use crate::numbers::{accepted, line, refused, Carried, ABSENT, PRESENT};
use crate::told_value::{header, value};
use protocol::{Read, Request, Words};

// The eight numbers, and behind them the buffer of a write or the bytes that `part` hands out.
pub fn told(request: &Request, answer: &str) -> Option<String> {
    let mut words = Words::of(answer);
    let mut told = match words.word()? {
        "ok" => match request {
            Request::Read { what, place, .. } => line(read(what, *place, &mut words)?),
            Request::Write { .. } => line(accepted(words.number()?, &[])),
            Request::Segments { .. } => return None,
        },
        "absent" => line(absent(request, &mut words)?),
        "refused" => line(refusal(request, &mut words)?),
        _ => return None,
    };
    match request {
        // what `part` hands out is the last word of an accepted answer; with a refusal it is nothing
        Request::Read { what: Read::Part(_), .. } => {
            told = format!("{told} {}", answer.strip_prefix("ok ").unwrap_or("-"));
        }
        Request::Read { .. } => {}
        Request::Write { capacity, .. } => {
            let buffer = words.bytes()?;
            if buffer.len() != *capacity {
                return None;
            }
            told = format!("{told} {}", hex(&buffer));
        }
        Request::Segments { .. } => return None,
    }
    words.done()?;
    Some(told)
}

// The numbers of an accepted read.
fn read(what: &Read, place: usize, words: &mut Words) -> Option<[u64; 8]> {
    let (fields, next) = match what {
        Read::Byte | Read::Bytes(_) => {
            let number =
                words.bytes()?.iter().fold(0, |number, byte| number << 8 | u64::from(*byte));
            (vec![number], words.number()?)
        }
        Read::Part(len) => {
            let handed = words.bytes()?.len() as u64;
            if handed != u64::from(*len) {
                return None;
            }
            (vec![place as u64, handed], place as u64 + handed)
        }
        Read::Slice(_) => (vec![words.number()?, words.number()?], words.number()?),
        Read::Unsigned(_) => (vec![words.number()?], words.number()?),
        Read::Signed(_) => (vec![words.number::<i64>()? as u64], words.number()?),
        Read::Tag | Read::Expect(_) => (tag(words)?.to_vec(), words.number()?),
        Read::ExpectNumber(_) | Read::ExpectValue(_) => match words.word()? {
            "-" => (vec![], words.number()?),
            _ => return None,
        },
        Read::Body { .. } | Read::BodyFor { .. } => body(words)?,
        Read::OptionalBody { .. } => {
            let (mut fields, next) = body(words)?;
            fields.push(PRESENT);
            (fields, next)
        }
        Read::Walk => (vec![words.number()?], 0),
        Read::Value => (value(words)?, words.number()?),
        Read::Header => (header(words)?, words.number()?),
        Read::Utf8 => (vec![], 0),
    };
    Some(accepted(next, &fields))
}

// A body's start, length, number and count, and the next place.
fn body(words: &mut Words) -> Option<(Vec<u64>, u64)> {
    let [start, len, number] = [words.number()?, words.number()?, words.number()?];
    let next = words.number()?;
    Some((vec![start, len, number, words.number()?], next))
}

// The numbers of an absent body; its next place is the request's own, as nothing was read.
fn absent(request: &Request, words: &mut Words) -> Option<[u64; 8]> {
    let Request::Read { what: Read::OptionalBody { .. }, place, .. } = request else {
        return None;
    };
    let [class, number, value] = match words.word()? {
        "end" => [0; 3],
        letter => [class(letter)?, words.number()?, words.number()?],
    };
    Some(accepted(*place as u64, &[class, number, value, 0, ABSENT]))
}

// The three numbers of a tag.
fn tag(words: &mut Words) -> Option<[u64; 3]> {
    let class = class(words.word()?)?;
    Some([class, words.number()?, words.number()?])
}

fn class(letter: &str) -> Option<u64> {
    match letter {
        "A" => Some(1),
        "C" => Some(2),
        "O" => Some(3),
        "X" => Some(4),
        _ => None,
    }
}

// The numbers of a refusal; a body and the walk have a count.
fn refusal(request: &Request, words: &mut Words) -> Option<[u64; 8]> {
    let number = words.number()?;
    let first = words.word()?;
    let carried = match class(first) {
        Some(class) => Carried::Tag([class, words.number()?, words.number()?]),
        None => Carried::Amount(first.parse().ok()?),
    };
    let count = match request {
        Request::Read {
            what: Read::Body { .. } | Read::BodyFor { .. } | Read::OptionalBody { .. } | Read::Walk,
            ..
        } => words.number()?,
        _ => 0,
    };
    Some(refused(number, carried, count))
}
