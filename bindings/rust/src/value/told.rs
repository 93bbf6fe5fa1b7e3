//! The values that the numbers of an answer tell.
use super::{ApplicationDataValue, BitString, CharacterString, Date, ObjectId, OctetString, Time};
use crate::answer::{boolean, part, Numbers};

impl<'a> ApplicationDataValue<'a> {
    /// The value that the numbers tell, with its text, or its octets or bits in the part of the buffer that was read.
    #[inline]
    pub(crate) fn told(told: &Numbers, text: Option<&'a str>, view: &'a [u8]) -> Option<Self> {
        Some(match told[2] {
            1 => Self::Boolean(boolean(told[3])?),
            2 => Self::Real(f32::from_bits(u32::try_from(told[3]).ok()?)),
            3 => Self::Double(f64::from_bits(told[3])),
            4 => Self::Date(date(told)?),
            5 => Self::Time(time(told)?),
            6 => Self::ObjectId(object_id(told)?),
            7 => Self::CharacterString(CharacterString { inner: text? }),
            8 => Self::OctetString(OctetString { inner: part(view, told[3], told[4])? }),
            9 => Self::BitString(BitString {
                unused_bits: byte(told[3])?,
                bits: part(view, told[4], told[5])?,
            }),
            10 => Self::Enumerated(u32::try_from(told[3]).ok()?),
            11 => Self::UnsignedInt(told[3]),
            12 => Self::SignedInt(told[3] as i64),
            _ => return None,
        })
    }
}

/// The byte of a number up to 255.
#[inline]
fn byte(number: u64) -> Option<u8> {
    u8::try_from(number).ok()
}

/// The date that the numbers tell.
#[inline]
fn date(told: &Numbers) -> Option<Date> {
    Some(Date {
        year: u16::try_from(told[3]).ok()?,
        month: byte(told[4])?,
        day: byte(told[5])?,
        wday: byte(told[6])?,
    })
}

/// The time that the numbers tell.
#[inline]
fn time(told: &Numbers) -> Option<Time> {
    Some(Time {
        hour: byte(told[3])?,
        minute: byte(told[4])?,
        second: byte(told[5])?,
        hundredths: byte(told[6])?,
    })
}

/// The object identifier that the numbers tell.
#[inline]
fn object_id(told: &Numbers) -> Option<ObjectId> {
    Some(ObjectId {
        object_type: u16::try_from(told[3]).ok()?,
        instance: u32::try_from(told[4]).ok()?,
    })
}
