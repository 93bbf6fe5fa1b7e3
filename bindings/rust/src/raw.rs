//! The library's calls as they are declared: slices and numbers in, the eight numbers out, in the order that bindings/c/thaolisem.h gives.
//!
//! For what the types of this crate cannot say and the library answers all the same: a text that is not UTF-8 (10), a service choice above 33 (11), a class, case, kind or field that names nothing (12); a state of segments that no call made; the tag that stands where a body is absent.
//! The numbers are handed out as they stand; `accepted` tells the refusal, if there is one, by this crate's types. Where the library has another version, nothing is called, and that refusal tells it.
use crate::answer::{self, Refusal};
use crate::calls;

/// The eight numbers of an answer, or of a state of segments, which are all 0 before the first frame.
pub type Numbers = [u64; 8];

pub use crate::calls::{
    decode_header, decode_signed, decode_tag, decode_unsigned, encode_context_bool,
    encode_enumerated, encode_header, encode_signed, encode_tag, encode_unsigned, encode_value,
    get_optional_tagged_body, get_tagged_body, get_tagged_body_for_tag, take_segment, version,
    walk,
};

/// Whether an answer is accepted, else its refusal.
#[inline]
pub fn accepted(told: &Numbers) -> Result<(), Refusal> {
    answer::accepted(told).map(|_| ())
}

/// The value at a place.
#[inline]
pub fn decode_value(buf: &[u8], place: usize) -> Numbers {
    calls::decode_value(buf, place).0
}

/// Whether bytes are UTF-8.
#[inline]
pub fn check_utf8(bytes: &[u8]) -> Numbers {
    match calls::check_utf8(bytes) {
        // what the library tells of a good text
        Ok(_) => [0; 8],
        Err(told) => told,
    }
}

#[cfg(test)]
mod unsaid;
