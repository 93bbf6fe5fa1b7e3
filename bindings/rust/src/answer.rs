//! What a call answers, from the eight numbers by which the library tells it.
use crate::declared::THAOLISEM_VERSION;
use crate::tag::Tag;
use core::fmt;

/// The eight numbers of an answer, or of a state of segments, in the order that bindings/c/thaolisem.h gives.
pub(crate) type Numbers = [u64; 8];

/// Why a call was not accepted.
#[derive(Debug, Clone, Copy, PartialEq, Eq)]
pub struct Refusal {
    /// 1 to 18 or 24 to 27, by the table in bindings/c/thaolisem.h; 0 where the library is not this crate's: one of another version, which is carried, or, carrying 0, one that told what has no name here.
    pub number: u64,
    /// What the table says that it carries.
    pub carried: Carried,
    /// The tags read, where a body or the walk was asked for; else 0.
    pub tags: usize,
}

/// What a refusal carries.
#[derive(Debug, Clone, Copy, PartialEq, Eq)]
pub enum Carried {
    /// A length, a place, a byte or a count; 0 where the table says 0; under number 0 the library's version.
    Amount(u64),
    /// The tag found, in 4, 5, 6 and 8.
    TagFound(Tag),
}

impl Refusal {
    /// The refusal of numbers that name nothing here.
    pub(crate) const UNNAMED: Self = Refusal::carrying(0, 0);

    /// A refusal that carries an amount.
    pub(crate) const fn carrying(number: u64, amount: usize) -> Self {
        Refusal { number, carried: Carried::Amount(amount as u64), tags: 0 }
    }

    /// A refusal that carries the tag found.
    pub(crate) const fn of_tag(number: u64, tag: Tag) -> Self {
        Refusal { number, carried: Carried::TagFound(tag), tags: 0 }
    }
}

impl fmt::Display for Refusal {
    fn fmt(&self, out: &mut fmt::Formatter) -> fmt::Result {
        match self.carried {
            Carried::Amount(version) if self.number == 0 && version != 0 => {
                let needed = THAOLISEM_VERSION;
                write!(out, "the library has version {version}, this crate needs {needed}")
            }
            Carried::Amount(amount) => write!(out, "refused {} carrying {amount}", self.number),
            Carried::TagFound(tag) => write!(out, "refused {} carrying {tag:?}", self.number),
        }
    }
}

/// The first number where the library was not called, as it has another version; what it carries is that version.
pub(crate) const OTHER_VERSION: u64 = u64::MAX;

/// The next place of an answer that is accepted, else its refusal; where there is no next place, 0.
#[inline]
pub(crate) fn accepted(told: &Numbers) -> Result<usize, Refusal> {
    if told[0] == 0 {
        Ok(told[1] as usize)
    } else {
        Err(refusal(told))
    }
}

/// The refusal that the numbers tell.
#[cold]
pub(crate) fn refusal(told: &Numbers) -> Refusal {
    let [first, _, class, carried, value, tags, ..] = *told;
    let carried = match class {
        0 => Carried::Amount(carried),
        class => match Tag::told(class, carried, value) {
            Some(tag) => Carried::TagFound(tag),
            None => return Refusal::UNNAMED,
        },
    };
    let number = if first == OTHER_VERSION { 0 } else { first };
    Refusal { number, carried, tags: tags as usize }
}

/// The part of a buffer that a place and a length tell, where it lies inside.
#[inline]
pub(crate) fn part(buf: &[u8], place: u64, len: u64) -> Option<&[u8]> {
    buf.get(place as usize..)?.get(..len as usize)
}

/// The boolean of 0 or 1.
#[inline]
pub(crate) fn boolean(number: u64) -> Option<bool> {
    match number {
        0 => Some(false),
        1 => Some(true),
        _ => None,
    }
}
