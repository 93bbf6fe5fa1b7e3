//! Integers by the length of their content, read, and written under their tags: in the fewest bytes that read as that tag and that integer, so that where 13 is answered no others would have fitted.
use crate::answer::{accepted, Refusal};
use crate::calls;
use crate::reader::Reader;
use crate::writer::Writer;

/// The unsigned integer whose content has this length, 1 to 8.
#[inline]
pub fn decode_unsigned(len: u32, reader: &mut Reader, buf: &[u8]) -> Result<u64, Refusal> {
    let told = calls::decode_unsigned(len, reader.view(buf), reader.index);
    reader.index = accepted(&told)?;
    Ok(told[2])
}

/// The signed integer whose content has this length, 1 to 8.
#[inline]
pub fn decode_signed(len: u32, reader: &mut Reader, buf: &[u8]) -> Result<i64, Refusal> {
    let told = calls::decode_signed(len, reader.view(buf), reader.index);
    reader.index = accepted(&told)?;
    Ok(told[2] as i64)
}

/// The class and the number under which an integer is written: the application tag of its kind, or a context tag.
#[inline]
fn under(context_tag: Option<u8>) -> (u8, u8) {
    match context_tag {
        None => (1, 0),
        Some(number) => (2, number),
    }
}

/// Writes an unsigned integer under application tag 2 or a context tag.
#[inline]
pub fn encode_unsigned(
    writer: &mut Writer,
    context_tag: Option<u8>,
    value: impl Into<u64>,
) -> Result<(), Refusal> {
    let (class, number) = under(context_tag);
    let told = calls::encode_unsigned(class, number, value.into(), writer.buf, writer.index);
    writer.written(told)
}

/// Writes a signed integer under application tag 3 or a context tag.
#[inline]
pub fn encode_signed(
    writer: &mut Writer,
    context_tag: Option<u8>,
    value: impl Into<i64>,
) -> Result<(), Refusal> {
    let (class, number) = under(context_tag);
    let told = calls::encode_signed(class, number, value.into(), writer.buf, writer.index);
    writer.written(told)
}

/// Writes an enumerated value under application tag 9 or a context tag.
#[inline]
pub fn encode_enumerated(
    writer: &mut Writer,
    value: impl Into<u64>,
    context_tag: Option<u8>,
) -> Result<(), Refusal> {
    let (class, number) = under(context_tag);
    let told = calls::encode_enumerated(class, number, value.into(), writer.buf, writer.index);
    writer.written(told)
}

/// Writes an unsigned integer under application tag 2.
#[inline]
pub fn encode_application_unsigned(
    writer: &mut Writer,
    value: impl Into<u64>,
) -> Result<(), Refusal> {
    encode_unsigned(writer, None, value)
}

/// Writes an unsigned integer under a context tag.
#[inline]
pub fn encode_context_unsigned(
    writer: &mut Writer,
    tag_number: u8,
    value: impl Into<u64>,
) -> Result<(), Refusal> {
    encode_unsigned(writer, Some(tag_number), value)
}

/// Writes a signed integer under application tag 3.
#[inline]
pub fn encode_application_signed(
    writer: &mut Writer,
    value: impl Into<i64>,
) -> Result<(), Refusal> {
    encode_signed(writer, None, value)
}

/// Writes an enumerated value under application tag 9.
#[inline]
pub fn encode_application_enumerated(writer: &mut Writer, value: u32) -> Result<(), Refusal> {
    encode_enumerated(writer, value, None)
}

/// Writes an enumerated value under a context tag.
#[inline]
pub fn encode_context_enumerated(
    writer: &mut Writer,
    tag_number: u8,
    value: u32,
) -> Result<(), Refusal> {
    encode_enumerated(writer, value, Some(tag_number))
}
