// Reads, asked of the original.
use crate::repeat::repeat;
use crate::{pdu, told};
use embedded_bacnet::application_protocol::primitives::data_value::ApplicationDataValue;
use embedded_bacnet::common::error::Error;
use embedded_bacnet::common::io::Reader;
use embedded_bacnet::common::object_id::{ObjectId, ObjectType};
use embedded_bacnet::common::property_id::PropertyId;
use embedded_bacnet::common::tag::Tag;
use embedded_bacnet::simple::{
    decode_signed, decode_unsigned, get_tagged_body, get_tagged_body_for_tag,
};
use protocol::Read;
use std::hint::black_box;
use std::str::{from_utf8, Utf8Error};

pub fn read(what: &Read, buf: &[u8], place: usize, count: u64) -> [Option<u64>; 8] {
    match *what {
        Read::Tag => {
            let call: fn(&mut Reader, &[u8]) -> Result<Tag, Error> = black_box(Tag::decode);
            told::tag(reads(buf, place, count, call))
        }
        Read::Unsigned(len) => {
            let call: fn(u32, &mut Reader, &[u8]) -> Result<u64, Error> =
                black_box(decode_unsigned);
            told::number(
                reads(buf, place, count, move |reader, buf| call(len, reader, buf)),
                |value| value,
            )
        }
        Read::Signed(len) => {
            let call: fn(u32, &mut Reader, &[u8]) -> Result<i64, Error> = black_box(decode_signed);
            told::number(
                reads(buf, place, count, move |reader, buf| call(len, reader, buf)),
                |value| value as u64,
            )
        }
        Read::Body { .. } | Read::BodyFor { .. } => read_body(what, buf, place, count),
        Read::Value => read_value(buf, place, count),
        Read::Header => {
            told::header(reads(buf, place, count, black_box(pdu::decode as pdu::Decode)))
        }
        Read::Utf8 => {
            let call: fn(&[u8]) -> Result<&str, Utf8Error> = black_box(from_utf8);
            told::text(repeat(count, move || call(buf)))
        }
        _ => panic!("the original has no such call"),
    }
}

fn read_body(what: &Read, buf: &[u8], place: usize, count: u64) -> [Option<u64>; 8] {
    match *what {
        Read::Body { .. } => {
            type Call = for<'a> fn(&mut Reader, &'a [u8]) -> Result<(&'a [u8], u8), Error>;
            let call: Call = black_box(get_tagged_body);
            told::body(reads(buf, place, count, call), buf)
        }
        Read::BodyFor { number, .. } => {
            type Call =
                for<'a> fn(&mut Reader, &'a [u8], u8, &'static str) -> Result<&'a [u8], Error>;
            let call: Call = black_box(get_tagged_body_for_tag);
            let (body, next) =
                reads(buf, place, count, move |reader, buf| call(reader, buf, number, ""));
            told::body((body.map(|body| (body, number)), next), buf)
        }
        _ => panic!("no body"),
    }
}

// Values are read as PropPresentValue of an object that is not binary.
fn read_value<'a>(buf: &'a [u8], place: usize, count: u64) -> [Option<u64>; 8] {
    type Call<'a> = fn(
        &ObjectId,
        &PropertyId,
        &mut Reader,
        &'a [u8],
    ) -> Result<ApplicationDataValue<'a>, Error>;
    let call: Call<'a> = black_box(ApplicationDataValue::decode);
    let object = &ObjectId { object_type: ObjectType::ObjectAnalogInput };
    let property = &PropertyId::PropPresentValue;
    told::value(
        reads(buf, place, count, move |reader, buf| call(object, property, reader, buf)),
        buf,
    )
}

// So many reads with one reader, put back to the place before each; the last answer and the place after it.
fn reads<'a, A>(
    buf: &'a [u8],
    place: usize,
    count: u64,
    call: impl Fn(&mut Reader, &'a [u8]) -> A,
) -> (A, usize) {
    let mut held = Reader { index: place, end: buf.len() };
    let reader = &mut held;
    let answer = repeat(count, move || {
        reader.index = place;
        call(reader, buf)
    });
    (answer, held.index)
}
