// Writes, asked of the original.
use crate::errors::number_of;
use crate::repeat::repeat;
use crate::{pdu, values::value_of};
use embedded_bacnet::application_protocol::primitives::data_value::ApplicationDataValue;
use embedded_bacnet::common::io::Writer;
use embedded_bacnet::common::tag::Tag;
use embedded_bacnet::simple::{
    encode_context_bool, encode_enumerated, encode_signed, encode_unsigned,
};
use protocol::{Value, Write};
use std::hint::black_box;

pub fn write(what: &Write, buf: &mut [u8], place: usize, count: u64) -> usize {
    match *what {
        Write::Tag(tag) => {
            let call: fn(&Tag, &mut Writer) = black_box(Tag::encode);
            let tag = &Tag::new(number_of(tag.name), tag.value);
            writes(buf, place, count, move |writer| call(tag, writer))
        }
        Write::Bool(number, value) => {
            let call: fn(&mut Writer, u8, bool) = black_box(encode_context_bool);
            writes(buf, place, count, move |writer| call(writer, number, value))
        }
        Write::Unsigned(context, value) => {
            let call: fn(&mut Writer, Option<u8>, u64) = black_box(encode_unsigned);
            writes(buf, place, count, move |writer| call(writer, context, value))
        }
        Write::Signed(context, value) => {
            let call: fn(&mut Writer, Option<u8>, i64) = black_box(encode_signed);
            writes(buf, place, count, move |writer| call(writer, context, value))
        }
        Write::Enumerated(context, value) => {
            let call: fn(&mut Writer, u64, Option<u8>) = black_box(encode_enumerated);
            writes(buf, place, count, move |writer| call(writer, value, context))
        }
        Write::Value(ref value) => write_value(value, buf, place, count),
        Write::Header(header) => {
            let pdu = &pdu::named(header);
            let call: fn(&pdu::Pdu, &mut Writer) = black_box(pdu::encode);
            writes(buf, place, count, move |writer| call(pdu, writer))
        }
        _ => panic!("no operation of the original"),
    }
}

fn write_value<'a>(value: &'a Value, buf: &mut [u8], place: usize, count: u64) -> usize {
    let call: fn(&ApplicationDataValue<'a>, &mut Writer) = black_box(ApplicationDataValue::encode);
    let value = &value_of(value).expect("a value of the original");
    writes(buf, place, count, move |writer| call(value, writer))
}

// So many writes with one writer, put back to the place before each; the place after the last.
fn writes(buf: &mut [u8], place: usize, count: u64, call: impl Fn(&mut Writer)) -> usize {
    let mut held = Writer { buf, index: place };
    let writer = &mut held;
    repeat(count, move || {
        writer.index = place;
        call(writer)
    });
    held.index
}
