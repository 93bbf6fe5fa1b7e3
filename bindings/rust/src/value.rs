//! The twelve application values.
mod named;
mod told;

use crate::answer::{accepted, Refusal};
use crate::calls;
use crate::reader::Reader;
use crate::writer::Writer;

/// A value under its application tag.
#[derive(Debug, Clone, Copy, PartialEq)]
pub enum ApplicationDataValue<'a> {
    Boolean(bool),
    /// Every NaN is read and written as 7FC00000; all other bits are kept.
    Real(f32),
    /// Every NaN is read and written as 7FF8000000000000; all other bits are kept.
    Double(f64),
    Date(Date),
    Time(Time),
    ObjectId(ObjectId),
    CharacterString(CharacterString<'a>),
    OctetString(OctetString<'a>),
    Enumerated(u32),
    BitString(BitString<'a>),
    UnsignedInt(u64),
    SignedInt(i64),
}

/// A date; its year, 1900 to 2155, is a byte plus 1900, the other fields are bytes as they stand.
#[derive(Debug, Clone, Copy, PartialEq, Eq)]
pub struct Date {
    pub year: u16,
    pub month: u8,
    pub day: u8,
    pub wday: u8,
}

/// A time of day, of four bytes as they stand.
#[derive(Debug, Clone, Copy, PartialEq, Eq)]
pub struct Time {
    pub hour: u8,
    pub minute: u8,
    pub second: u8,
    pub hundredths: u8,
}

/// An object identifier; ten bits of the type and 22 of the instance can be written.
#[derive(Debug, Clone, Copy, PartialEq, Eq)]
pub struct ObjectId {
    pub object_type: u16,
    pub instance: u32,
}

/// A text of character set 0, which is UTF-8.
#[derive(Debug, Clone, Copy, PartialEq, Eq)]
pub struct CharacterString<'a> {
    pub inner: &'a str,
}

/// Octets.
#[derive(Debug, Clone, Copy, PartialEq, Eq)]
pub struct OctetString<'a> {
    pub inner: &'a [u8],
}

/// Bits; so many at the end of the last byte are not used.
#[derive(Debug, Clone, Copy, PartialEq, Eq)]
pub struct BitString<'a> {
    pub unused_bits: u8,
    pub bits: &'a [u8],
}

impl<'a> CharacterString<'a> {
    /// This text.
    #[inline]
    pub fn new(inner: &'a str) -> Self {
        CharacterString { inner }
    }
}

impl<'a> OctetString<'a> {
    /// These octets.
    #[inline]
    pub fn new(inner: &'a [u8]) -> Self {
        OctetString { inner }
    }
}

impl<'a> BitString<'a> {
    /// The bits of these bytes but for the unused ones.
    #[inline]
    pub fn new(unused_bits: u8, bits: &'a [u8]) -> Self {
        BitString { unused_bits, bits }
    }
}

impl<'a> ApplicationDataValue<'a> {
    /// The value at the reader's place; its text, octets or bits are a part of the buffer.
    #[inline]
    pub fn decode(reader: &mut Reader, buf: &'a [u8]) -> Result<Self, Refusal> {
        let view = reader.view(buf);
        let (told, text) = calls::decode_value(view, reader.index);
        let next = accepted(&told)?;
        let value = Self::told(&told, text, view).ok_or(Refusal::UNNAMED)?;
        reader.index = next;
        Ok(value)
    }

    /// Writes the value.
    #[inline]
    pub fn encode(&self, writer: &mut Writer) -> Result<(), Refusal> {
        let (case, fields, content) = self.named();
        let told = calls::encode_value(case, fields, content, writer.buf, writer.index);
        writer.written(told)
    }
}
