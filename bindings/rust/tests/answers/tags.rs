//! Tags, read, expected and written.
use crate::{read, refused, refused_tag, write};
use thaolisem::ApplicationTagNumber::{self, *};
use thaolisem::TagNumber::{self, *};
use thaolisem::{encode_closing_tag, encode_context_bool, encode_opening_tag, Tag};

/// Tags and their bytes, which are read and written alike.
const BOTH_WAYS: [(TagNumber, u32, &[u8]); 11] = [
    // 01, examples at the edges
    (Application(OctetString), 253, &[0x65, 0xFD]),
    (Application(OctetString), 300, &[0x65, 0xFE, 0x01, 0x2C]),
    (Application(OctetString), 65_535, &[0x65, 0xFE, 0xFF, 0xFF]),
    (Application(OctetString), 65_536, &[0x65, 0xFF, 0x00, 0x01, 0x00, 0x00]),
    (ContextSpecific(14), 4, &[0xEC]),
    (ContextSpecific(15), 4, &[0xFC, 0x0F]),
    // 01, Tags: the largest number and value
    (ContextSpecific(255), u32::MAX, &[0xFD, 0xFF, 0xFF, 0xFF, 0xFF, 0xFF, 0xFF]),
    (ContextSpecificOpening(3), 0, &[0x3E]),
    (ContextSpecificClosing(3), 0, &[0x3F]),
    (ContextSpecificOpening(14), 0, &[0xEE]),
    (ContextSpecificClosing(0), 0, &[0x0F]),
];

#[test]
fn tags_and_their_bytes() {
    for (number, value, bytes) in BOTH_WAYS {
        let tag = Tag::new(number, value);
        assert_eq!(read(bytes, Tag::decode), Ok((tag, bytes.len())));
        assert_eq!(write(bytes.len(), |w| tag.encode(w)), Ok(bytes.to_vec()));
        let room = bytes.len() - 1;
        assert_eq!(write(room, |w| tag.encode(w)), Err(refused(13, bytes.len() as u64)));
    }
}

#[test]
fn every_application_number() {
    for n in 0..=15u8 {
        let number = ApplicationTagNumber::try_from(n).unwrap();
        assert_eq!(number as u8, n);
        let tag = Tag::new(Application(number), 2);
        assert_eq!(read(&[n << 4 | 2], Tag::decode), Ok((tag, 1)));
        assert_eq!(write(1, |w| tag.encode(w)), Ok(vec![n << 4 | 2]));
    }
    assert_eq!(ApplicationTagNumber::try_from(16), Err(16));
}

#[test]
fn every_context_number_there_and_back() {
    for n in 0..=255 {
        for number in [ContextSpecific(n), ContextSpecificOpening(n), ContextSpecificClosing(n)] {
            let tag = Tag::new(number, 0);
            let bytes = write(2, |w| tag.encode(w)).unwrap();
            assert_eq!(read(&bytes, Tag::decode), Ok((tag, bytes.len())));
        }
    }
}

#[test]
fn block_tags_whose_number_is_a_byte_of_its_own() {
    // 02, K1: the second byte is the number, also below 15; a missing one is 3 with the end
    for n in 0..=255 {
        let (opening, closing) = (ContextSpecificOpening(n), ContextSpecificClosing(n));
        assert_eq!(read(&[0xFE, n], Tag::decode), Ok((Tag::new(opening, 0), 2)));
        assert_eq!(read(&[0xFF, n], Tag::decode), Ok((Tag::new(closing, 0), 2)));
    }
    assert_eq!(read(&[0xFE], Tag::decode), Err(refused(3, 1)));
    // application 15 neither opens nor closes
    for first in [0xF6, 0xF7] {
        assert_eq!(read(&[first], Tag::decode), Ok((Tag::new(Application(Reserve3), 0), 1)));
    }
}

#[test]
fn bytes_that_run_out() {
    // a single byte carries the end, several the place plus their count (01, refusal 3)
    assert_eq!(read(&[], Tag::decode), Err(refused(3, 0)));
    assert_eq!(read(&[0xF9], Tag::decode), Err(refused(3, 1)));
    assert_eq!(read(&[0x65, 0xFE, 0x01], Tag::decode), Err(refused(3, 4)));
    assert_eq!(read(&[0x65, 0xFF, 0x01], Tag::decode), Err(refused(3, 6)));
}

#[test]
fn a_tag_that_is_expected() {
    // docs/DECISIONS.md: 4 and 5 carry the whole tag found
    let found = Tag::new(ContextSpecific(3), 3);
    let expecting =
        |number| read(&[0x3B], move |reader, buf| Tag::decode_expected(reader, buf, number));
    assert_eq!(expecting(ContextSpecific(3)), Ok((found, 1)));
    for number in [ContextSpecific(4), ContextSpecificOpening(3), Application(SignedInt)] {
        assert_eq!(expecting(number), Err(refused_tag(4, found)));
        assert_eq!(found.expect_number(number), Err(refused_tag(4, found)));
    }
    assert_eq!(found.expect_number(ContextSpecific(3)), Ok(()));
    assert_eq!(found.expect_value(3), Ok(()));
    assert_eq!(found.expect_value(4), Err(refused_tag(5, found)));
}

#[test]
fn blocks_and_booleans() {
    assert_eq!(write(1, |w| encode_opening_tag(w, 3)), Ok(vec![0x3E]));
    assert_eq!(write(1, |w| encode_closing_tag(w, 3)), Ok(vec![0x3F]));
    // docs/DIFFERENCES.md: `wopen 15`; 01, Tags
    assert_eq!(write(2, |w| encode_opening_tag(w, 15)), Ok(vec![0xFE, 0x0F]));
    assert_eq!(write(2, |w| encode_closing_tag(w, 255)), Ok(vec![0xFF, 0xFF]));
    assert_eq!(write(1, |w| encode_closing_tag(w, 15)), Err(refused(13, 2)));
    // a context tag of length 1 and one byte (the Rust's encode_context_bool)
    assert_eq!(write(2, |w| encode_context_bool(w, 3, true)), Ok(vec![0x39, 0x01]));
    assert_eq!(write(2, |w| encode_context_bool(w, 3, false)), Ok(vec![0x39, 0x00]));
    assert_eq!(write(1, |w| encode_context_bool(w, 3, true)), Err(refused(13, 2)));
}

#[test]
fn a_block_tag_with_a_value_cannot_be_written() {
    // docs/DIFFERENCES.md, row (d)
    for number in [ContextSpecificOpening(0), ContextSpecificClosing(3)] {
        assert_eq!(write(9, |w| Tag::new(number, 1).encode(w)), Err(refused(12, 0)));
    }
}
