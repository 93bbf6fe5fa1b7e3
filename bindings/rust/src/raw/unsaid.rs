//! Tests: what the types of this crate cannot say is refused as the table says, and the buffer stays.
use super::*;
use crate::answer::Carried;

/// Whether a write is refused by that number, carrying that, with the buffer as it was.
fn refused(number: u64, carried: u64, write: impl FnOnce(&mut [u8]) -> Numbers) {
    let mut buf = [0xAA; 8];
    let refusal = Refusal { number, carried: Carried::Amount(carried), tags: 0 };
    assert_eq!(accepted(&write(&mut buf)), Err(refusal));
    assert_eq!(buf, [0xAA; 8]);
}

#[test]
fn names_nothing() {
    for class in [0, 5, 255] {
        refused(12, 0, |buf| encode_tag(class, 0, 0, buf, 0));
    }
    for class in [0, 3, 255] {
        refused(12, 0, |buf| encode_unsigned(class, 0, 1, buf, 0));
        refused(12, 0, |buf| encode_signed(class, 0, 1, buf, 0));
        refused(12, 0, |buf| encode_enumerated(class, 0, 1, buf, 0));
    }
    refused(12, 0, |buf| encode_tag(1, 16, 0, buf, 0));
    refused(12, 0, |buf| encode_context_bool(0, 2, buf, 0));
    for case in [0, 13, 255] {
        refused(12, 0, |buf| encode_value(case, [0; 4], &[], buf, 0));
    }
    refused(12, 0, |buf| encode_value(1, [2, 0, 0, 0], &[], buf, 0));
    refused(12, 0, |buf| encode_value(10, [1 << 32, 0, 0, 0], &[], buf, 0));
    for kind in [1, 8, 255] {
        refused(12, 0, |buf| encode_header(kind, [0; 4], buf, 0));
    }
}

#[test]
fn texts_and_choices() {
    refused(10, 1, |buf| encode_value(7, [0; 4], b"a\xFF", buf, 0));
    refused(11, 34, |buf| encode_header(2, [1, 34, 0, 0], buf, 0));
    let refusal = Refusal { number: 10, carried: Carried::Amount(1), tags: 0 };
    assert_eq!(accepted(&check_utf8(b"a\xFF")), Err(refusal));
    assert_eq!(check_utf8(b"a"), [0; 8]);
    assert_eq!(accepted(&decode_value(&[0x11], 0)), Ok(()));
}
