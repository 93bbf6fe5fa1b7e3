//! Integers by the length of their content, and under their tags.
use crate::{read, read_at, refused, write};
use thaolisem::*;

#[test]
fn examples_of_01() {
    assert_eq!(write(2, |w| encode_application_unsigned(w, 0u8)), Ok(vec![0x21, 0x00]));
    assert_eq!(write(3, |w| encode_application_unsigned(w, 256u16)), Ok(vec![0x22, 0x01, 0x00]));
    let signed: [(i64, &[u8]); 4] = [
        (127, &[0x31, 0x7F]),
        (128, &[0x32, 0x00, 0x80]),
        (-128, &[0x31, 0x80]),
        (-129, &[0x32, 0xFF, 0x7F]),
    ];
    for (value, bytes) in signed {
        assert_eq!(write(3, |w| encode_application_signed(w, value)), Ok(bytes.to_vec()));
    }
}

#[test]
fn under_other_tags() {
    // docs/DIFFERENCES.md: `wsig 0 32768`
    assert_eq!(write(4, |w| encode_signed(w, Some(0), 32_768)), Ok(vec![0x0B, 0x00, 0x80, 0x00]));
    // 01's frame of a ReadProperty request has property 85 under context tag 1: 19 55
    assert_eq!(write(2, |w| encode_context_unsigned(w, 1, 85u32)), Ok(vec![0x19, 0x55]));
    assert_eq!(write(2, |w| encode_context_enumerated(w, 1, 85)), Ok(vec![0x19, 0x55]));
    // the standard's example of an enumerated value: 91 00
    assert_eq!(write(2, |w| encode_application_enumerated(w, 0)), Ok(vec![0x91, 0x00]));
    let largest = [0x95, 0x08, 0xFF, 0xFF, 0xFF, 0xFF, 0xFF, 0xFF, 0xFF, 0xFF];
    assert_eq!(write(10, |w| encode_enumerated(w, u64::MAX, None)), Ok(largest.to_vec()));
}

/// The numbers at both sides of every power of two.
fn boundaries() -> impl Iterator<Item = u64> {
    (0..64).flat_map(|bit| [(1 << bit) - 1, 1 << bit, u64::MAX << bit, !(1 << bit)])
}

#[test]
fn unsigned_there_and_back_in_the_fewest_bytes() {
    for value in boundaries() {
        for context in [None, Some(0), Some(14), Some(15), Some(255)] {
            let bytes = write(11, |w| encode_unsigned(w, context, value)).unwrap();
            let (tag, content) = read(&bytes, Tag::decode).unwrap();
            let integer = |reader: &mut Reader, buf| decode_unsigned(tag.value, reader, buf);
            assert_eq!(read_at(content, &bytes, integer), Ok((value, bytes.len())));
            let fewest = (1..8).find(|len| value >> (8 * len) == 0).unwrap_or(8);
            assert_eq!(tag.value, fewest);
        }
    }
}

#[test]
fn signed_there_and_back_in_the_fewest_bytes() {
    for value in boundaries().map(|bits| bits as i64) {
        for context in [None, Some(0), Some(14), Some(15), Some(255)] {
            let bytes = write(11, |w| encode_signed(w, context, value)).unwrap();
            let (tag, content) = read(&bytes, Tag::decode).unwrap();
            let integer = |reader: &mut Reader, buf| decode_signed(tag.value, reader, buf);
            assert_eq!(read_at(content, &bytes, integer), Ok((value, bytes.len())));
            let holds = |len: &u32| {
                let end = 1i128 << (8 * len - 1);
                (-end..end).contains(&i128::from(value))
            };
            assert_eq!(Some(tag.value), (1..=8).find(holds));
        }
    }
}

#[test]
fn content_of_every_length() {
    let buf = [0xFF, 0x02, 0x03, 0x04, 0x05, 0x06, 0x07, 0x08, 0x09];
    for len in 1..=8u32 {
        // most significant byte first; signed is two's complement (01, Integers)
        let mut bytes = [0; 8];
        bytes[8 - len as usize..].copy_from_slice(&buf[..len as usize]);
        let unsigned = u64::from_be_bytes(bytes);
        let signed = (unsigned << (64 - 8 * len)) as i64 >> (64 - 8 * len);
        let end = len as usize;
        assert_eq!(read(&buf, |r, b| decode_unsigned(len, r, b)), Ok((unsigned, end)));
        assert_eq!(read(&buf, |r, b| decode_signed(len, r, b)), Ok((signed, end)));
    }
}

#[test]
fn refused_integers() {
    for len in [0, 9, u32::MAX] {
        // 01: before any byte is read
        assert_eq!(read(&[], |r, b| decode_unsigned(len, r, b)), Err(refused(7, len.into())));
        assert_eq!(read(&[], |r, b| decode_signed(len, r, b)), Err(refused(7, len.into())));
    }
    // docs/DECISIONS.md: a content of one byte carries place plus count too
    assert_eq!(read_at(1, &[0x21], |r, b| decode_unsigned(1, r, b)), Err(refused(3, 2)));
    assert_eq!(read_at(1, &[0x21], |r, b| decode_signed(8, r, b)), Err(refused(3, 9)));
    // docs/DECISIONS.md: header and content together
    assert_eq!(write(2, |w| encode_application_unsigned(w, 256u32)), Err(refused(13, 3)));
    assert_eq!(write(2, |w| encode_application_signed(w, 128)), Err(refused(13, 3)));
    assert_eq!(write(10, |w| encode_enumerated(w, u64::MAX, Some(15))), Err(refused(13, 11)));
}
