//! The functions of the static library, as bindings/c/thaolisem.h declares them.
use crate::answer::Numbers;

/// The version of the library that this crate speaks to.
pub const THAOLISEM_VERSION: u64 = 3;

#[link(name = "thaolisem", kind = "static")]
extern "C" {
    pub fn thaolisem_version() -> u64;

    pub fn thaolisem_decode_tag(buf: *const u8, len: usize, place: usize, answer: *mut Numbers);

    pub fn thaolisem_decode_unsigned(
        content: u32,
        buf: *const u8,
        len: usize,
        place: usize,
        answer: *mut Numbers,
    );

    pub fn thaolisem_decode_signed(
        content: u32,
        buf: *const u8,
        len: usize,
        place: usize,
        answer: *mut Numbers,
    );

    pub fn thaolisem_get_tagged_body(
        allowance: usize,
        buf: *const u8,
        len: usize,
        place: usize,
        answer: *mut Numbers,
    );

    pub fn thaolisem_get_tagged_body_for_tag(
        expected: u8,
        allowance: usize,
        buf: *const u8,
        len: usize,
        place: usize,
        answer: *mut Numbers,
    );

    pub fn thaolisem_get_optional_tagged_body(
        expected: u8,
        allowance: usize,
        buf: *const u8,
        len: usize,
        place: usize,
        answer: *mut Numbers,
    );

    pub fn thaolisem_walk(buf: *const u8, len: usize, place: usize, answer: *mut Numbers);

    pub fn thaolisem_decode_value(buf: *const u8, len: usize, place: usize, answer: *mut Numbers);

    pub fn thaolisem_decode_header(buf: *const u8, len: usize, place: usize, answer: *mut Numbers);

    pub fn thaolisem_check_utf8(text: *const u8, len: usize, answer: *mut Numbers);

    pub fn thaolisem_encode_tag(
        tag_class: u8,
        number: u8,
        value: u32,
        buf: *mut u8,
        len: usize,
        place: usize,
        answer: *mut Numbers,
    );

    pub fn thaolisem_encode_unsigned(
        tag_class: u8,
        number: u8,
        value: u64,
        buf: *mut u8,
        len: usize,
        place: usize,
        answer: *mut Numbers,
    );

    pub fn thaolisem_encode_signed(
        tag_class: u8,
        number: u8,
        value: i64,
        buf: *mut u8,
        len: usize,
        place: usize,
        answer: *mut Numbers,
    );

    pub fn thaolisem_encode_enumerated(
        tag_class: u8,
        number: u8,
        value: u64,
        buf: *mut u8,
        len: usize,
        place: usize,
        answer: *mut Numbers,
    );

    pub fn thaolisem_encode_context_bool(
        number: u8,
        value: u8,
        buf: *mut u8,
        len: usize,
        place: usize,
        answer: *mut Numbers,
    );

    pub fn thaolisem_encode_value(
        value_case: u8,
        a: u64,
        b: u64,
        c: u64,
        d: u64,
        content: *const u8,
        content_len: usize,
        buf: *mut u8,
        len: usize,
        place: usize,
        answer: *mut Numbers,
    );

    pub fn thaolisem_encode_header(
        kind: u8,
        a: u64,
        b: u64,
        c: u64,
        d: u64,
        buf: *mut u8,
        len: usize,
        place: usize,
        answer: *mut Numbers,
    );

    pub fn thaolisem_take_segment(
        state: *mut Numbers,
        frame: *const u8,
        frame_len: usize,
        buf: *mut u8,
        len: usize,
        answer: *mut Numbers,
    );
}
