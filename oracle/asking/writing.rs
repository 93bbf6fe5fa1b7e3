// Writes, asked of the given Rust.
use crate::errors::number_of;
use crate::{headers, values};
use embedded_bacnet::common::io::Writer;
use embedded_bacnet::common::tag::Tag;
use embedded_bacnet::simple::{
    encode_closing_tag, encode_context_bool, encode_enumerated, encode_opening_tag, encode_signed,
    encode_unsigned,
};
use protocol::{put_hex, Write};

pub fn ask(what: &Write, place: usize, capacity: usize) -> Option<String> {
    let mut buf = vec![0xAA; capacity];
    let mut writer = Writer::new(&mut buf);
    writer.index = place;
    write(what, &mut writer)?;
    let mut answer = format!("ok {} ", writer.index);
    put_hex(&buf, &mut answer);
    Some(answer)
}

fn write(what: &Write, writer: &mut Writer) -> Option<()> {
    match what {
        Write::Push(byte) => writer.push(*byte),
        Write::Extend(content) => writer.extend_from_slice(content),
        Write::Tag(tag) => Tag::new(number_of(tag.name), tag.value).encode(writer),
        Write::Opening(number) => encode_opening_tag(writer, *number),
        Write::Closing(number) => encode_closing_tag(writer, *number),
        Write::Bool(number, value) => encode_context_bool(writer, *number, *value),
        Write::Unsigned(number, value) => encode_unsigned(writer, *number, *value),
        Write::Signed(number, value) => encode_signed(writer, *number, *value),
        Write::Enumerated(number, value) => encode_enumerated(writer, *value, *number),
        Write::Value(value) => values::value_of(value)?.encode(writer),
        Write::Header(header) => headers::write(*header, writer)?,
    }
    Some(())
}
