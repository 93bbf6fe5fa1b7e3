//! The calls of the static library over slices: the only unsafe code of this crate.
//!
//! Why each call is sound:
//! - A slice's pointer is not null, also where the slice is empty, and as many bytes as its length can be read there; in a `&mut` slice they can be written too.
//! - A state is lent as a `&mut` array of eight numbers, which can be read and written.
//! - Nothing overlaps what is written: a `&mut` slice or state overlaps nothing else that is lent, and the array for the answer is a local of `answer_of`.
//! - The library reads and writes these slices and arrays alone, never past their ends, and it comes back: that is proved of every function, for every input.
//! - It puts all eight numbers into the array, whatever stood there: that is each function's promise. So the array need not be cleared before.
//! - These are promises of one version of the library. Its number is asked before the first call, and of another version nothing else is called.
use crate::answer::{part, Numbers};
use crate::declared::*;
use crate::version;
use core::mem::MaybeUninit;

/// The eight numbers that a call puts into the array lent to it; where the library has another version, the refusal that says so.
///
/// # Safety
///
/// The call puts all eight.
#[inline]
unsafe fn answer_of(call: impl FnOnce(*mut Numbers)) -> Numbers {
    if !version::same() {
        return version::refused();
    }
    let mut answer = MaybeUninit::uninit();
    call(answer.as_mut_ptr());
    answer.assume_init()
}

/// The library's version.
#[inline]
pub fn version() -> u64 {
    // Sound: in every version this function takes nothing and answers a number.
    unsafe { thaolisem_version() }
}

/// The tag at a place.
#[inline]
pub fn decode_tag(buf: &[u8], place: usize) -> Numbers {
    unsafe { answer_of(|answer| thaolisem_decode_tag(buf.as_ptr(), buf.len(), place, answer)) }
}

/// The unsigned integer whose content has this length.
#[inline]
pub fn decode_unsigned(content: u32, buf: &[u8], place: usize) -> Numbers {
    unsafe {
        answer_of(|answer| {
            thaolisem_decode_unsigned(content, buf.as_ptr(), buf.len(), place, answer)
        })
    }
}

/// The signed integer whose content has this length.
#[inline]
pub fn decode_signed(content: u32, buf: &[u8], place: usize) -> Numbers {
    unsafe {
        answer_of(|answer| thaolisem_decode_signed(content, buf.as_ptr(), buf.len(), place, answer))
    }
}

/// The body at a place.
#[inline]
pub fn get_tagged_body(allowance: usize, buf: &[u8], place: usize) -> Numbers {
    unsafe {
        answer_of(|answer| {
            thaolisem_get_tagged_body(allowance, buf.as_ptr(), buf.len(), place, answer)
        })
    }
}

/// The body of the number expected at a place.
#[inline]
pub fn get_tagged_body_for_tag(
    expected: u8,
    allowance: usize,
    buf: &[u8],
    place: usize,
) -> Numbers {
    let (bytes, len) = (buf.as_ptr(), buf.len());
    unsafe {
        answer_of(|answer| {
            thaolisem_get_tagged_body_for_tag(expected, allowance, bytes, len, place, answer)
        })
    }
}

/// The body of the number expected if one stands at a place.
#[inline]
pub fn get_optional_tagged_body(
    expected: u8,
    allowance: usize,
    buf: &[u8],
    place: usize,
) -> Numbers {
    let (bytes, len) = (buf.as_ptr(), buf.len());
    unsafe {
        answer_of(|answer| {
            thaolisem_get_optional_tagged_body(expected, allowance, bytes, len, place, answer)
        })
    }
}

/// The strict walk from a place to the end.
#[inline]
pub fn walk(buf: &[u8], place: usize) -> Numbers {
    unsafe { answer_of(|answer| thaolisem_walk(buf.as_ptr(), buf.len(), place, answer)) }
}

/// The header at a place.
#[inline]
pub fn decode_header(buf: &[u8], place: usize) -> Numbers {
    unsafe { answer_of(|answer| thaolisem_decode_header(buf.as_ptr(), buf.len(), place, answer)) }
}

/// A value's numbers and, where it is a text that lies in the buffer, the text.
#[inline]
pub fn decode_value(buf: &[u8], place: usize) -> (Numbers, Option<&str>) {
    let told = unsafe {
        answer_of(|answer| thaolisem_decode_value(buf.as_ptr(), buf.len(), place, answer))
    };
    let [first, _, case, start, len, ..] = told;
    if first != 0 || case != 7 {
        return (told, None);
    }
    // Sound: the promise of an accepted text is that its bytes are UTF-8 (RFC 3629), which is what a `str` asks for.
    let text = part(buf, start, len).map(|bytes| unsafe { core::str::from_utf8_unchecked(bytes) });
    (told, text)
}

/// The text of these bytes, or the numbers of the refusal.
#[inline]
pub fn check_utf8(bytes: &[u8]) -> Result<&str, Numbers> {
    let told =
        unsafe { answer_of(|answer| thaolisem_check_utf8(bytes.as_ptr(), bytes.len(), answer)) };
    if told[0] != 0 {
        return Err(told);
    }
    // Sound: the promise of 0 is that these bytes are UTF-8.
    Ok(unsafe { core::str::from_utf8_unchecked(bytes) })
}

/// Writes the tag of a class, a number and a value.
#[inline]
pub fn encode_tag(class: u8, number: u8, value: u32, buf: &mut [u8], place: usize) -> Numbers {
    let (bytes, len) = (buf.as_mut_ptr(), buf.len());
    unsafe {
        answer_of(|answer| thaolisem_encode_tag(class, number, value, bytes, len, place, answer))
    }
}

/// Writes an unsigned integer under application tag 2 (class 1) or a context tag (class 2).
#[inline]
pub fn encode_unsigned(class: u8, number: u8, value: u64, buf: &mut [u8], place: usize) -> Numbers {
    let (bytes, len) = (buf.as_mut_ptr(), buf.len());
    unsafe {
        answer_of(|answer| {
            thaolisem_encode_unsigned(class, number, value, bytes, len, place, answer)
        })
    }
}

/// Writes a signed integer under application tag 3 (class 1) or a context tag (class 2).
#[inline]
pub fn encode_signed(class: u8, number: u8, value: i64, buf: &mut [u8], place: usize) -> Numbers {
    let (bytes, len) = (buf.as_mut_ptr(), buf.len());
    unsafe {
        answer_of(|answer| thaolisem_encode_signed(class, number, value, bytes, len, place, answer))
    }
}

/// Writes an enumerated value under application tag 9 (class 1) or a context tag (class 2).
#[inline]
pub fn encode_enumerated(
    class: u8,
    number: u8,
    value: u64,
    buf: &mut [u8],
    place: usize,
) -> Numbers {
    let (bytes, len) = (buf.as_mut_ptr(), buf.len());
    unsafe {
        answer_of(|answer| {
            thaolisem_encode_enumerated(class, number, value, bytes, len, place, answer)
        })
    }
}

/// Writes a boolean, 0 or 1, under a context tag.
#[inline]
pub fn encode_context_bool(number: u8, value: u8, buf: &mut [u8], place: usize) -> Numbers {
    let (bytes, len) = (buf.as_mut_ptr(), buf.len());
    unsafe {
        answer_of(|answer| thaolisem_encode_context_bool(number, value, bytes, len, place, answer))
    }
}

/// Writes the value of a case and its fields; the content of text, octets and bits is the lent slice.
#[inline]
pub fn encode_value(
    case: u8,
    [a, b, c, d]: [u64; 4],
    content: &[u8],
    buf: &mut [u8],
    place: usize,
) -> Numbers {
    let (lent, lent_len) = (content.as_ptr(), content.len());
    let (bytes, len) = (buf.as_mut_ptr(), buf.len());
    unsafe {
        answer_of(|answer| {
            thaolisem_encode_value(case, a, b, c, d, lent, lent_len, bytes, len, place, answer)
        })
    }
}

/// Writes the header of a PDU type and its fields.
#[inline]
pub fn encode_header(kind: u8, [a, b, c, d]: [u64; 4], buf: &mut [u8], place: usize) -> Numbers {
    let (bytes, len) = (buf.as_mut_ptr(), buf.len());
    unsafe {
        answer_of(|answer| thaolisem_encode_header(kind, a, b, c, d, bytes, len, place, answer))
    }
}

/// Takes one frame of an answer in segments: its part goes behind the bytes held in the buffer, and the state becomes the one after it.
#[inline]
pub fn take_segment(state: &mut Numbers, frame: &[u8], buf: &mut [u8]) -> Numbers {
    let (sent, sent_len) = (frame.as_ptr(), frame.len());
    let (bytes, len) = (buf.as_mut_ptr(), buf.len());
    unsafe { answer_of(|answer| thaolisem_take_segment(state, sent, sent_len, bytes, len, answer)) }
}
