//! The numbers and the content by which a value is named to the library.
use super::ApplicationDataValue;

impl<'a> ApplicationDataValue<'a> {
    /// The case, its fields, and the content of a text, octets or bits.
    #[inline]
    pub(super) fn named(&self) -> (u8, [u64; 4], &'a [u8]) {
        match *self {
            Self::Boolean(x) => (1, [x.into(), 0, 0, 0], &[]),
            Self::Real(x) => (2, [x.to_bits().into(), 0, 0, 0], &[]),
            Self::Double(x) => (3, [x.to_bits(), 0, 0, 0], &[]),
            Self::Date(x) => (4, [x.year.into(), x.month.into(), x.day.into(), x.wday.into()], &[]),
            Self::Time(x) => {
                (5, [x.hour.into(), x.minute.into(), x.second.into(), x.hundredths.into()], &[])
            }
            Self::ObjectId(x) => (6, [x.object_type.into(), x.instance.into(), 0, 0], &[]),
            Self::CharacterString(x) => (7, [0; 4], x.inner.as_bytes()),
            Self::OctetString(x) => (8, [0; 4], x.inner),
            Self::BitString(x) => (9, [x.unused_bits.into(), 0, 0, 0], x.bits),
            Self::Enumerated(x) => (10, [x.into(), 0, 0, 0], &[]),
            Self::UnsignedInt(x) => (11, [x, 0, 0, 0], &[]),
            Self::SignedInt(x) => (12, [x as u64, 0, 0, 0], &[]),
        }
    }
}
