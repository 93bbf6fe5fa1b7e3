// Answers in the form of the protocol.
use crate::bodies::{body, body_for, optional_body, Body, OptionalBody};
use crate::headers::header;
use crate::integers::{signed, unsigned};
use crate::reading::{byte, open, slice};
use crate::refusal::Refusal;
use crate::segments::script;
use crate::tags::{expected, expected_value, tag, LongBlockTags};
use crate::utf8;
use crate::values::value;
use crate::walk::walk;
use crate::writing::write;
use protocol::{put_hex, Read, Request, Write};

// What the port must answer.
pub fn answer(request: &Request) -> String {
    answer_reading(LongBlockTags::OpenAndClose, request)
}

// The answer where long block tags are read this way.
pub fn answer_reading(long: LongBlockTags, request: &Request) -> String {
    match request {
        Request::Read { what, place, buf } => read_answer(what, long, buf, *place),
        Request::Write { what, place, capacity } => write_answer(what, *place, *capacity),
        Request::Segments { capacity, calls } => script(*capacity, calls),
    }
}

fn write_answer(what: &Write, place: usize, capacity: usize) -> String {
    let mut buf = vec![0xAA; capacity];
    let mut answer = match write(what, &mut buf, place) {
        Ok(next) => format!("ok {next} "),
        Err(refusal) => format!("{refusal} "),
    };
    put_hex(&buf, &mut answer);
    answer
}

fn read_answer(what: &Read, long: LongBlockTags, buf: &[u8], place: usize) -> String {
    if let Err(refusal) = open(buf, place) {
        return if counts(what) { format!("{refusal} 0") } else { refusal.to_string() };
    }
    match what {
        Read::Body { allowance } => body_answer(body(*allowance, long, buf, place)),
        Read::BodyFor { number, allowance } => {
            body_answer(body_for(*number, *allowance, long, buf, place))
        }
        Read::OptionalBody { number, allowance } => {
            optional_answer(optional_body(*number, *allowance, long, buf, place))
        }
        Read::Walk => match walk(long, buf, place) {
            (Ok(()), count) => format!("ok {count}"),
            (Err(refusal), count) => format!("{refusal} {count}"),
        },
        _ => accepted(what, long, buf, place).unwrap_or_else(|refusal| refusal.to_string()),
    }
}

// Whether a refusal of this read ends in the count of tags.
fn counts(what: &Read) -> bool {
    matches!(
        what,
        Read::Body { .. } | Read::BodyFor { .. } | Read::OptionalBody { .. } | Read::Walk
    )
}

fn body_answer((found, count): (Result<Body, Refusal>, u64)) -> String {
    match found {
        Ok(Body { start, len, number, next }) => {
            format!("ok {start} {len} {number} {next} {count}")
        }
        Err(refusal) => format!("{refusal} {count}"),
    }
}

fn optional_answer(answer: OptionalBody) -> String {
    match answer {
        OptionalBody::Present(body, count) => body_answer((Ok(body), count)),
        OptionalBody::Absent(None) => "absent end".to_string(),
        OptionalBody::Absent(Some(found)) => format!("absent {found}"),
        OptionalBody::Refused(refusal, count) => body_answer((Err(refusal), count)),
    }
}

// The answer of a read that counts nothing.
fn accepted(what: &Read, long: LongBlockTags, buf: &[u8], place: usize) -> Result<String, Refusal> {
    Ok(match what {
        Read::Byte => byte(buf, place).map(|(byte, next)| format!("ok {byte:02x} {next}"))?,
        Read::Bytes(count) => {
            let (bytes, next) = slice(*count, buf, place)?;
            format!("{} {next}", ok_hex(bytes))
        }
        Read::Slice(len) => {
            slice(*len as usize, buf, place).map(|(_, next)| format!("ok {place} {len} {next}"))?
        }
        Read::Part(len) => slice(*len as usize, buf, place).map(|(bytes, _)| ok_hex(bytes))?,
        Read::Unsigned(len) => printed(unsigned(*len, buf, place)?),
        Read::Signed(len) => printed(signed(*len, buf, place)?),
        Read::Tag => printed(tag(long, buf, place)?),
        Read::Expect(name) => printed(expected(*name, long, buf, place)?),
        Read::ExpectNumber(name) => format!("ok - {}", expected(*name, long, buf, place)?.1),
        Read::ExpectValue(value) => format!("ok - {}", expected_value(*value, long, buf, place)?.1),
        Read::Value => printed(value(long, buf, place)?),
        Read::Header => printed(header(long, buf, place)?),
        Read::Utf8 => utf8::check(&buf[place..]).map(|()| "ok".to_string())?,
        Read::Body { .. } | Read::BodyFor { .. } | Read::OptionalBody { .. } | Read::Walk => {
            unreachable!()
        }
    })
}

fn printed((what, next): (impl std::fmt::Display, usize)) -> String {
    format!("ok {what} {next}")
}

fn ok_hex(bytes: &[u8]) -> String {
    let mut answer = "ok ".to_string();
    put_hex(bytes, &mut answer);
    answer
}
