//! Optional bodies. What is expected: docs/DECISIONS.md, "An optional body".
use crate::{after, at, read, read_at, refused, same_part};
use thaolisem::*;

#[test]
fn there_or_absent() {
    let buf: &[u8] = &[0x3E, 0x21, 0x07, 0x3F];
    let (body, next) = read(buf, |r, b| get_optional_tagged_body(r, b, 3)).unwrap();
    let body = body.unwrap();
    assert!(same_part(body.view, &buf[1..3]));
    assert_eq!((body.number, body.tags, next), (3, 2, 4));
    // another tag: an item, a context tag of that number, its closing, another number's opening
    for other in [&[0x21, 0x07][..], &[0x39], &[0x3F], &[0x4E, 0x4F]] {
        assert_eq!(read(other, |r, b| get_optional_tagged_body(r, b, 3)), Ok((None, 0)));
    }
    // the end, of no bytes and of some; the reader stays
    assert_eq!(read(&[], |r, b| get_optional_tagged_body(r, b, 3)), Ok((None, 0)));
    assert_eq!(read_at(4, buf, |r, b| get_optional_tagged_body(r, b, 3)), Ok((None, 4)));
}

#[test]
fn what_is_cut_is_never_absent() {
    // a block that is cut behind its opening, within an item and between two
    let block = [0x0E, 0x21, 0x05, 0x0F];
    for (len, tags) in [(1, 0), (2, 1), (3, 1)] {
        let cut = read(&block[..len], |r, b| get_optional_tagged_body(r, b, 0));
        assert_eq!(cut, Err(after(tags, refused(3, len as u64))));
    }
    // a tag that is cut, whatever it might have become: an item, or an opening of any number
    for first in [0xF9, 0xFE] {
        assert_eq!(read(&[first], |r, b| get_optional_tagged_body(r, b, 3)), Err(refused(3, 1)));
    }
}

#[test]
fn a_block_of_number_15_or_more() {
    let buf: &[u8] = &[0xFE, 0x0F, 0x21, 0x07, 0xFF, 0x0F];
    let asked = |number| read(buf, move |r, b| get_optional_tagged_body(r, b, number));
    assert_eq!(asked(15), Ok((Some(Body { view: &buf[2..4], number: 15, tags: 2 }), 6)));
    assert_eq!(asked(16), Ok((None, 0)));
    for (len, tags) in [(1, 0), (2, 0), (3, 1), (4, 1), (5, 1)] {
        let cut = read(&buf[..len], |r, b| get_optional_tagged_body(r, b, 15));
        assert_eq!(cut, Err(after(tags, refused(3, len as u64))));
    }
}

#[test]
fn outside_and_within_an_allowance() {
    let buf: &[u8] = &[0x3E, 0x21, 0x07, 0x3F];
    assert_eq!(read_at(5, buf, |r, b| get_optional_tagged_body(r, b, 3)), Err(refused(2, 5)));
    let long = vec![0x00; 65_536];
    let at_end = read_at(65_536, &long, |r, b| get_optional_tagged_body(r, b, 3));
    assert_eq!(at_end, Err(refused(1, 65_536)));
    let within = |allowance, number| {
        read(buf, move |r, b| get_optional_tagged_body_within(allowance, r, b, number))
    };
    assert_eq!(within(1, 3), Err(after(1, refused(14, 1))));
    assert_eq!(within(0, 3), Err(refused(14, 0)));
    // the allowance is of tags behind the opening
    assert_eq!(within(0, 4), Ok((None, 0)));
    assert_eq!(within(2, 3), Ok((Some(Body { view: &buf[1..3], number: 3, tags: 2 }), 4)));
}

#[test]
fn up_to_the_readers_end() {
    let buf: &[u8] = &[0x3E, 0x21, 0x07, 0x3F];
    let mut reader = Reader { end: 3, ..at(0) };
    assert_eq!(get_optional_tagged_body(&mut reader, buf, 3), Err(after(1, refused(3, 3))));
    let mut reader = Reader { end: 0, ..at(0) };
    assert_eq!(get_optional_tagged_body(&mut reader, buf, 3), Ok(None));
}
