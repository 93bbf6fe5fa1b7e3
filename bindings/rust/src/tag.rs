//! Tags, read, expected and written.
use crate::answer::{accepted, Refusal};
use crate::calls;
use crate::reader::Reader;
use crate::writer::Writer;

/// The number of an application tag.
#[derive(Debug, Clone, Copy, PartialEq, Eq)]
#[repr(u8)]
pub enum ApplicationTagNumber {
    Null = 0,
    Boolean = 1,
    UnsignedInt = 2,
    SignedInt = 3,
    Real = 4,
    Double = 5,
    OctetString = 6,
    CharacterString = 7,
    BitString = 8,
    Enumerated = 9,
    Date = 10,
    Time = 11,
    ObjectId = 12,
    Reserve1 = 13,
    Reserve2 = 14,
    Reserve3 = 15,
}

/// The class of a tag and its number.
#[derive(Debug, Clone, Copy, PartialEq, Eq)]
pub enum TagNumber {
    Application(ApplicationTagNumber),
    ContextSpecific(u8),
    ContextSpecificOpening(u8),
    ContextSpecificClosing(u8),
}

/// A tag; its value is the length of the content, except in an application Boolean.
#[derive(Debug, Clone, Copy, PartialEq, Eq)]
pub struct Tag {
    pub number: TagNumber,
    pub value: u32,
}

impl TryFrom<u8> for ApplicationTagNumber {
    type Error = u8;

    /// The application tag of this number; above 15 there is none.
    #[inline]
    fn try_from(number: u8) -> Result<Self, u8> {
        Ok(match number {
            0 => Self::Null,
            1 => Self::Boolean,
            2 => Self::UnsignedInt,
            3 => Self::SignedInt,
            4 => Self::Real,
            5 => Self::Double,
            6 => Self::OctetString,
            7 => Self::CharacterString,
            8 => Self::BitString,
            9 => Self::Enumerated,
            10 => Self::Date,
            11 => Self::Time,
            12 => Self::ObjectId,
            13 => Self::Reserve1,
            14 => Self::Reserve2,
            15 => Self::Reserve3,
            other => return Err(other),
        })
    }
}

impl TagNumber {
    /// The class and the number by which the library is told them.
    #[inline]
    fn named(self) -> (u8, u8) {
        match self {
            TagNumber::Application(number) => (1, number as u8),
            TagNumber::ContextSpecific(number) => (2, number),
            TagNumber::ContextSpecificOpening(number) => (3, number),
            TagNumber::ContextSpecificClosing(number) => (4, number),
        }
    }
}

impl Tag {
    /// A tag of this number and value.
    #[inline]
    pub fn new(number: TagNumber, value: u32) -> Self {
        Tag { number, value }
    }

    /// The tag that three numbers tell.
    #[inline]
    pub(crate) fn told(class: u64, number: u64, value: u64) -> Option<Self> {
        let number = u8::try_from(number).ok()?;
        let number = match class {
            1 => TagNumber::Application(ApplicationTagNumber::try_from(number).ok()?),
            2 => TagNumber::ContextSpecific(number),
            3 => TagNumber::ContextSpecificOpening(number),
            4 => TagNumber::ContextSpecificClosing(number),
            _ => return None,
        };
        Some(Tag { number, value: u32::try_from(value).ok()? })
    }

    /// The tag at the reader's place.
    #[inline]
    pub fn decode(reader: &mut Reader, buf: &[u8]) -> Result<Self, Refusal> {
        let told = calls::decode_tag(reader.view(buf), reader.index);
        let next = accepted(&told)?;
        let [_, _, class, number, value, ..] = told;
        let tag = Self::told(class, number, value).ok_or(Refusal::UNNAMED)?;
        reader.index = next;
        Ok(tag)
    }

    /// The tag at the reader's place, where it has the number that is expected; else 4.
    #[inline]
    pub fn decode_expected(
        reader: &mut Reader,
        buf: &[u8],
        expected: TagNumber,
    ) -> Result<Self, Refusal> {
        let mut ahead = reader.clone();
        let tag = Self::decode(&mut ahead, buf)?;
        tag.expect_number(expected)?;
        *reader = ahead;
        Ok(tag)
    }

    /// Whether the tag has this value; else 5.
    #[inline]
    pub fn expect_value(&self, value: u32) -> Result<(), Refusal> {
        if self.value == value {
            Ok(())
        } else {
            Err(Refusal::of_tag(5, *self))
        }
    }

    /// Whether the tag has this number; else 4.
    #[inline]
    pub fn expect_number(&self, number: TagNumber) -> Result<(), Refusal> {
        if self.number == number {
            Ok(())
        } else {
            Err(Refusal::of_tag(4, *self))
        }
    }

    /// Writes the tag.
    #[inline]
    pub fn encode(&self, writer: &mut Writer) -> Result<(), Refusal> {
        let (class, number) = self.number.named();
        let told = calls::encode_tag(class, number, self.value, writer.buf, writer.index);
        writer.written(told)
    }
}
