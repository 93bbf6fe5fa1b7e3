//! Whether bytes are UTF-8, beside `core::str::from_utf8`.
use crate::{refused, same_part};
use thaolisem::check_utf8;

/// The check answers as the Rust library does, and hands the same bytes back.
fn as_core_says(bytes: &[u8]) {
    match (check_utf8(bytes), core::str::from_utf8(bytes)) {
        (Ok(text), Ok(_)) => assert!(same_part(text.as_bytes(), bytes)),
        (Err(refusal), Err(bad)) => assert_eq!(refusal, refused(10, bad.valid_up_to() as u64)),
        (ours, core) => panic!("{bytes:02X?}: {ours:?}, and core says {core:?}"),
    }
}

#[test]
fn every_text_of_up_to_two_bytes() {
    as_core_says(&[]);
    for first in 0..=255 {
        as_core_says(&[first]);
        for second in 0..=255 {
            as_core_says(&[first, second]);
        }
    }
}

#[test]
fn longer_texts_over_the_boundaries() {
    // the bytes at which RFC 3629's table changes
    let edges = [
        0x00, 0x7F, 0x80, 0x8F, 0x90, 0x9F, 0xA0, 0xBF, 0xC1, 0xC2, 0xDF, 0xE0, 0xE1, 0xEC, 0xED,
        0xEE, 0xEF, 0xF0, 0xF1, 0xF3, 0xF4, 0xF5, 0xFF,
    ];
    let next = |texts: &[Vec<u8>]| -> Vec<Vec<u8>> {
        texts.iter().flat_map(|text| edges.map(|edge| [&text[..], &[edge]].concat())).collect()
    };
    let three = next(&next(&next(&[vec![]])));
    for text in three.iter().chain(&next(&three)) {
        as_core_says(text);
    }
}

#[test]
fn the_start_of_the_bad_sequence() {
    // docs/DECISIONS.md
    assert_eq!(check_utf8(&[0xE2, 0x82, 0x41]), Err(refused(10, 0)));
    assert_eq!(check_utf8(b"board \xE2\x82\xAC"), Ok("board €"));
}
