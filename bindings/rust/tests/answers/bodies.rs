//! Tagged bodies.
use crate::{after, at, read, read_at, refused, refused_tag, same_part};
use thaolisem::*;

/// The body at the buffer's start with an allowance of tags: where the view lies, its number, the tags read, the next place.
fn body(
    allowance: usize,
    buf: &[u8],
) -> Result<(std::ops::Range<usize>, u8, usize, usize), Refusal> {
    let (body, next) = read(buf, |r, b| get_tagged_body_within(allowance, r, b))?;
    let start = body.view.as_ptr() as usize - buf.as_ptr() as usize;
    Ok((start..start + body.view.len(), body.number, body.tags, next))
}

#[test]
fn examples_of_01() {
    assert_eq!(body(4, &[0x3E, 0x21, 0x07, 0x3F]), Ok((1..3, 3, 2, 4)));
    assert_eq!(body(1, &[0x3E, 0x21, 0x07, 0x3F]), Err(after(1, refused(14, 1))));
    assert_eq!(body(4, &[0x3E, 0x15, 0x3F, 0x3F]), Ok((1..3, 3, 2, 4)));
    assert_eq!(body(3, &[0x3E, 0x2F, 0x3F]), Ok((1..2, 3, 2, 3)));
    assert_eq!(body(3, &[0x3E, 0x3E, 0x3F]), Err(after(2, refused(3, 3))));
    assert_eq!(body(4, &[0x3E, 0x24, 0x00, 0x3F]), Err(after(1, refused(3, 4))));
}

#[test]
fn decided_edges() {
    // docs/DECISIONS.md
    assert_eq!(body(2, &[0x3E, 0x3F]), Ok((1..1, 3, 1, 2)));
    assert_eq!(body(0, &[0x3E]), Err(refused(14, 0)));
    assert_eq!(body(0, &[]), Err(refused(3, 0)));
    let unsigned = Tag::new(TagNumber::Application(ApplicationTagNumber::UnsignedInt), 1);
    assert_eq!(body(0, &[0x21, 0x07]), Err(refused_tag(6, unsigned)));
    assert_eq!(body(1, &[0x3E, 0x24, 0x00, 0x3F]), Err(after(1, refused(14, 1))));
    // a body in a body of its own number: the count of openings and closings decides
    assert_eq!(body(6, &[0x3E, 0x3E, 0x21, 0x07, 0x3F, 0x3F]), Ok((1..5, 3, 4, 6)));
}

#[test]
fn the_names_of_the_original() {
    // the answer of 01's second frame: its body is a Real
    let frame: &[u8] = &[
        0x30, 0x01, 0x0C, 0x0C, 0x00, 0x80, 0x00, 0x05, 0x19, 0x55, 0x3E, 0x44, 0x42, 0x90, 0x00,
        0x00, 0x3F,
    ];
    let ((view, number), next) = read_at(10, frame, get_tagged_body).unwrap();
    assert!(same_part(view, &frame[11..16]));
    assert_eq!((number, next), (3, 17));
    let (view, next) = read_at(10, frame, |r, b| get_tagged_body_for_tag(r, b, 3)).unwrap();
    assert!(same_part(view, &frame[11..16]));
    assert_eq!(next, 17);
}

#[test]
fn an_empty_view_lies_where_it_should() {
    let buf: &[u8] = &[0x00, 0x3E, 0x3F];
    let ((view, _), _) = read_at(1, buf, get_tagged_body).unwrap();
    assert!(same_part(view, &buf[2..2]));
}

#[test]
fn a_body_of_the_number_expected() {
    let buf: &[u8] = &[0x3E, 0x21, 0x07, 0x3F];
    let within = |allowance, number| {
        read(buf, move |r, b| get_tagged_body_for_tag_within(allowance, r, b, number))
    };
    let view = &buf[1..3];
    assert_eq!(within(4, 3), Ok((Body { view, number: 3, tags: 2 }, 4)));
    assert_eq!(within(1, 3), Err(after(1, refused(14, 1))));
    let found = Tag::new(TagNumber::ContextSpecificOpening(3), 0);
    for number in [2, 4, 15, 255] {
        assert_eq!(within(4, number), Err(refused_tag(4, found)));
    }
}

#[test]
fn a_body_between_tags_of_two_bytes() {
    // 02, K1: the view ends where the closing tag begins, and a tag of two bytes counts once
    assert_eq!(body(5, &[0x3E, 0x21, 0x07, 0xFF, 0x03]), Ok((1..3, 3, 2, 5)));
    assert_eq!(body(5, &[0xFE, 0x03, 0x21, 0x07, 0x3F]), Ok((2..4, 3, 2, 5)));
    assert_eq!(body(9, &[0xFE, 0x0F, 0xFF]), Err(refused(3, 3)));
    let buf: &[u8] = &[0xFE, 0x10, 0xFF, 0x10];
    let numbered = |number| read(buf, move |r, b| get_tagged_body_for_tag_within(4, r, b, number));
    assert_eq!(numbered(16), Ok((Body { view: &[], number: 16, tags: 1 }, 4)));
    let found = Tag::new(TagNumber::ContextSpecificOpening(16), 0);
    assert_eq!(numbered(15), Err(refused_tag(4, found)));
}

#[test]
fn the_whole_length_is_allowance_enough() {
    // as many tags as bytes can hold: 1,000 of one byte each
    let mut buf = vec![0x00; 1_002];
    (buf[0], buf[1_001]) = (0x3E, 0x3F);
    let ((view, _), next) = read(&buf, get_tagged_body).unwrap();
    assert!(same_part(view, &buf[1..1_001]));
    assert_eq!(next, 1_002);
    assert_eq!(body(1_000, &buf), Err(after(1_000, refused(14, 1_000))));
    assert_eq!(body(1_001, &buf), Ok((1..1_001, 3, 1_001, 1_002)));
}

#[test]
fn a_body_past_the_readers_end() {
    let buf: &[u8] = &[0x3E, 0x21, 0x07, 0x3F];
    let mut reader = Reader { end: 3, ..at(0) };
    assert_eq!(get_tagged_body(&mut reader, buf), Err(after(1, refused(3, 3))));
    reader.set_len(4);
    assert_eq!(get_tagged_body(&mut reader, buf), Ok((&buf[1..3], 3)));
}
