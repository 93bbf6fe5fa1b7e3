//! The strict walk.
use crate::{after, at, refused};
use thaolisem::walk;

#[test]
fn frames_of_01() {
    // "The program": the tags after each header
    let request = [0x0C, 0x00, 0x80, 0x00, 0x05, 0x19, 0x55];
    assert_eq!(walk(&at(0), &request), Ok(2));
    let complex = [
        0x30, 0x01, 0x0C, 0x0C, 0x00, 0x80, 0x00, 0x05, 0x19, 0x55, 0x3E, 0x44, 0x42, 0x90, 0x00,
        0x00, 0x3F,
    ];
    assert_eq!(walk(&at(3), &complex), Ok(5));
    assert_eq!(walk(&at(0), &[]), Ok(0));
}

#[test]
fn refusals_with_their_counts() {
    // 01: 3E 2F 3F is a body, but the walk gives 15
    assert_eq!(walk(&at(0), &[0x3E, 0x2F, 0x3F]), Err(after(1, refused(15, 1))));
    // docs/DECISIONS.md
    assert_eq!(walk(&at(0), &[0x3E, 0x4E, 0x3F]), Err(after(2, refused(15, 2))));
    // 02, K1: a closing of two bytes, of another number and of its own
    assert_eq!(walk(&at(0), &[0xFE, 0x0F, 0xFF, 0x10]), Err(after(1, refused(15, 2))));
    assert_eq!(walk(&at(0), &[0x0E, 0xFF, 0x00]), Ok(2));
    let far = [0x25, 0xFF, 0xFF, 0xFF, 0xFF, 0xFF];
    assert_eq!(walk(&at(0), &far), Err(refused(3, 4_294_967_301)));
    // 01, Bodies: a block unclosed at the end gives 3 with the end
    assert_eq!(walk(&at(0), &[0x3E, 0x21, 0x07]), Err(after(2, refused(3, 3))));
}

#[test]
fn sixteen_blocks_and_no_seventeenth() {
    let mut sixteen = vec![0x0E; 16];
    sixteen.extend([0x0F; 16]);
    assert_eq!(walk(&at(0), &sixteen), Ok(32));
    assert_eq!(walk(&at(0), &[0x0E; 17]), Err(after(16, refused(16, 16))));
}

#[test]
fn up_to_the_readers_end() {
    let buf = [0x21, 0x07, 0x3F];
    let mut reader = at(0);
    reader.set_len(2);
    assert_eq!(walk(&reader, &buf), Ok(1));
    assert_eq!(reader.index, 0);
    assert_eq!(walk(&at(0), &buf), Err(after(1, refused(15, 2))));
}
