// The original's answers as the eight numbers of bindings/c/thaolisem.h; none where it does not say a number.
use crate::pdu::Pdu;
use embedded_bacnet::application_protocol::primitives::data_value::{
    ApplicationDataValue, BitString, Date, Enumerated, Time,
};
use embedded_bacnet::common::error::Error;
use embedded_bacnet::common::tag::{Tag, TagNumber};
use std::str::Utf8Error;

type Numbers = [Option<u64>; 8];

pub fn tag((answer, next): (Result<Tag, Error>, usize)) -> Numbers {
    accepted(answer, |tag| {
        let [class, number] = class_and_number(&tag.number);
        [0, next as u64, class, number, tag.value.into(), 0, 0, 0].map(Some)
    })
}

pub fn number<N>((answer, next): (Result<N, Error>, usize), bits: fn(N) -> u64) -> Numbers {
    accepted(answer, |value| [0, next as u64, bits(value), 0, 0, 0, 0, 0].map(Some))
}

// The original does not count tags.
pub fn body((answer, next): (Result<(&[u8], u8), Error>, usize), buf: &[u8]) -> Numbers {
    let mut told = accepted(answer, |(body, number)| {
        let [place, len] = lies(body, buf);
        [0, next as u64, place, len, number.into(), 0, 0, 0].map(Some)
    });
    told[5] = None;
    told
}

pub fn text(answer: Result<&str, Utf8Error>) -> Numbers {
    let [first, carried] = answer.map_or_else(|bad| [10, bad.valid_up_to() as u64], |_| [0, 0]);
    [first, 0, 0, carried, 0, 0, 0, 0].map(Some)
}

pub fn value((answer, next): (Result<ApplicationDataValue, Error>, usize), buf: &[u8]) -> Numbers {
    accepted(answer, |value| {
        let [case, a, b, c, d] = fields(&value, buf);
        [0, next as u64, case, a, b, c, d, 0].map(Some)
    })
}

fn fields(value: &ApplicationDataValue, buf: &[u8]) -> [u64; 5] {
    use ApplicationDataValue as Value;
    let part = |case, part| {
        let [place, len] = lies(part, buf);
        [case, place, len, 0, 0]
    };
    match value {
        Value::Boolean(value) => [1, u64::from(*value), 0, 0, 0],
        Value::Real(value) => [2, value.to_bits().into(), 0, 0, 0],
        Value::Double(value) => [3, value.to_bits(), 0, 0, 0],
        Value::Date(Date { year, month, day, wday }) => {
            [4, u64::from(*year), u64::from(*month), u64::from(*day), u64::from(*wday)]
        }
        Value::Time(Time { hour, minute, second, hundredths }) => {
            [5, u64::from(*hour), u64::from(*minute), u64::from(*second), u64::from(*hundredths)]
        }
        Value::CharacterString(text) => part(7, text.inner.as_bytes()),
        Value::OctetString(octets) => part(8, octets.inner),
        Value::BitString(BitString::Custom(bits)) => {
            let [_, place, len, ..] = part(9, bits.bits);
            [9, bits.unused_bits.into(), place, len, 0]
        }
        Value::Enumerated(Enumerated::Unknown(value)) => [10, u64::from(*value), 0, 0, 0],
        Value::UnsignedInt(value) => [11, *value, 0, 0, 0],
        Value::SignedInt(value) => [12, *value as u64, 0, 0, 0],
        _ => panic!("a stand-in's value"),
    }
}

pub fn header((answer, next): (Result<Pdu, Error>, usize)) -> Numbers {
    accepted(answer, |pdu| {
        let [kind, a, b, c, d] = match pdu {
            Pdu::Request(pdu) => {
                let [segments, size] = [pdu.max_segments as u8 >> 4, pdu.max_adpu as u8];
                [0, segments, size, pdu.invoke_id, 12].map(u32::from)
            }
            Pdu::Simple(ack) => [2, ack.invoke_id, ack.service_choice as u8, 0, 0].map(u32::from),
            Pdu::Complex(ack) => [3, ack.invoke_id, 12, 0, 0].map(u32::from),
            Pdu::Segment(ack) => {
                [4, ack.invoke_id, ack.sequence_num, ack.proposed_window_size, 0].map(u32::from)
            }
            Pdu::Error(error) => {
                let [id, choice] = [error.invoke_id, error.service_choice as u8].map(u32::from);
                [5, id, choice, error.error_class.number, error.error_code.number]
            }
        }
        .map(u64::from);
        [0, next as u64, kind, a, b, c, d, 0].map(Some)
    })
}

fn accepted<A>(answer: Result<A, Error>, told: impl FnOnce(A) -> Numbers) -> Numbers {
    answer.map_or_else(refused, told)
}

// A refusal; the original's errors have no value of the tag found, and no place of a bad text.
fn refused(error: Error) -> Numbers {
    let amount = |number, amount| [number, 0, 0, amount, 0, 0, 0, 0].map(Some);
    let found = |number: u64, tag: &TagNumber| {
        let [class, field] = class_and_number(tag);
        let mut told = [number, 0, class, field, 0, 0, 0, 0].map(Some);
        told[4] = None;
        told
    };
    match error {
        Error::ReaderEof(end) => amount(3, end as u64),
        Error::ExpectedTag(tag) => found(4, &tag.actual),
        Error::ExpectedOpeningTag(tag) => found(6, &tag),
        Error::Length((_, length)) => amount(7, length.into()),
        Error::TagNotSupported((_, tag)) => found(8, &tag),
        Error::InvalidVariant((_, number)) => amount(11, number.into()),
        Error::InvalidValue(_) => {
            let mut told = amount(10, 0);
            told[3] = None;
            told
        }
        other => panic!("an error that no input is meant to give: {other:?}"),
    }
}

fn class_and_number(number: &TagNumber) -> [u64; 2] {
    match number {
        TagNumber::Application(name) => [1, name.clone() as u64],
        TagNumber::ContextSpecific(number) => [2, u64::from(*number)],
        TagNumber::ContextSpecificOpening(number) => [3, u64::from(*number)],
        TagNumber::ContextSpecificClosing(number) => [4, u64::from(*number)],
    }
}

// Where a part of the buffer lies: place and length.
fn lies(part: &[u8], buf: &[u8]) -> [u64; 2] {
    [part.as_ptr() as u64 - buf.as_ptr() as u64, part.len() as u64]
}
