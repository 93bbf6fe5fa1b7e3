//! Tests: numbers that no library of this version tells have no name here, and never end a program.
use crate::answer::{accepted, part, Numbers, Refusal};
use crate::body::found_or_absent;
use crate::header::Header;
use crate::reader::Reader;
use crate::segments::{Segments, Taken};
use crate::tag::Tag;
use crate::value::ApplicationDataValue;

const LARGE: [u64; 4] = [256, 65_536, 1 << 32, u64::MAX];

#[test]
fn tags() {
    for class in [0, 5].into_iter().chain(LARGE) {
        assert_eq!(Tag::told(class, 0, 0), None);
    }
    for class in 1..=4 {
        assert_eq!(Tag::told(class, 256, 0), None);
        assert_eq!(Tag::told(class, 0, 1 << 32), None);
        assert!(Tag::told(class, 15, u64::from(u32::MAX)).is_some());
    }
    assert_eq!(Tag::told(1, 16, 0), None);
}

#[test]
fn refusals() {
    assert_eq!(accepted(&[4, 0, 5, 0, 0, 0, 0, 0]), Err(Refusal::UNNAMED));
    assert_eq!(accepted(&[4, 0, 1, 16, 0, 0, 0, 0]), Err(Refusal::UNNAMED));
    assert_eq!(accepted(&[u64::MAX; 8]), Err(Refusal::UNNAMED));
}

#[test]
fn optional_bodies() {
    for presence in [0, 3].into_iter().chain(LARGE) {
        let told = [0, 0, 0, 0, 0, 0, presence, 0];
        let mut reader = Reader::default();
        assert_eq!(found_or_absent(told, &mut reader, &[]), Err(Refusal::UNNAMED));
        assert_eq!(reader, Reader::default());
    }
    // a view outside the buffer, and a number that is no byte
    for told in [[0, 0, 1, 0, 0, 0, 1, 0], [0, 0, 0, 0, 256, 0, 1, 0]] {
        assert_eq!(found_or_absent(told, &mut Reader::default(), &[]), Err(Refusal::UNNAMED));
    }
}

/// An accepted answer of a case or kind, with one number as given and the others 0.
fn with(case: u64, place: usize, number: u64) -> Numbers {
    let mut told = [0, 0, case, 0, 0, 0, 0, 0];
    told[place] = number;
    told
}

#[test]
fn values() {
    for case in [0, 13].into_iter().chain(LARGE) {
        assert_eq!(ApplicationDataValue::told(&with(case, 3, 0), Some(""), &[]), None);
    }
    // the cases with fields, and at which place a number is too large for its field
    let fields = [(1, 3, 2), (2, 3, 1 << 32), (4, 3, 65_536), (4, 6, 256), (5, 5, 256)];
    let more = [(6, 3, 65_536), (6, 4, 1 << 32), (8, 3, 1), (8, 4, 1), (9, 3, 256), (9, 5, 1)];
    for (case, place, number) in fields.into_iter().chain(more).chain([(10, 3, 1 << 32)]) {
        assert_eq!(ApplicationDataValue::told(&with(case, place, number), None, &[]), None);
        assert!(ApplicationDataValue::told(&with(case, place, 0), None, &[]).is_some());
    }
    assert_eq!(ApplicationDataValue::told(&with(7, 3, 0), None, &[]), None);
}

#[test]
fn headers() {
    for kind in [1, 8].into_iter().chain(LARGE) {
        assert_eq!(Header::told(&with(kind, 3, 0)), None);
    }
    // the kinds, and at which place a number is too large for its field
    let acknowledged = [(0, 3, 256), (0, 6, 34), (2, 4, 34), (3, 3, 256), (4, 5, 256)];
    let error = [(5, 3, 256), (5, 4, 34), (5, 5, 1 << 32), (5, 6, 1 << 32)];
    let others = [(6, 3, 256), (6, 4, 256), (7, 3, 2), (7, 4, 256), (7, 5, 256)];
    for (kind, place, number) in acknowledged.into_iter().chain(error).chain(others) {
        assert_eq!(Header::told(&with(kind, place, number)), None);
        assert!(Header::told(&with(kind, place, 0)).is_some());
    }
}

#[test]
fn segments() {
    let named = [1, 0, 255, 33, 255, 65_535, 0, 0];
    let refused = |outcome, state| {
        let mut segments = Segments::default();
        let told = [0, 65_535, outcome, 255, 0, 0, 0, 0];
        assert_eq!(segments.go_on(&told, state), Err(Refusal::UNNAMED));
        assert_eq!(segments, Segments::default());
    };
    for outcome in [0, 3].into_iter().chain(LARGE) {
        refused(outcome, named);
    }
    // more to come in a state that is finished, and the last in one that is not
    refused(1, [1, 1, 255, 33, 255, 65_535, 0, 0]);
    refused(2, named);
    // a number that its place cannot have
    for (place, number) in [(0, 0), (0, 2), (1, 2), (2, 256), (3, 34), (4, 256)] {
        let mut state = named;
        state[place] = number;
        refused(1, state);
    }
    let more = Segments::default().go_on(&[0, 65_535, 1, 255, 0, 0, 0, 0], named);
    assert_eq!(more, Ok(Taken::More));
}

#[test]
fn parts() {
    let buf = [1, 2, 3];
    assert_eq!(part(&buf, 1, 2), Some(&buf[1..]));
    assert_eq!(part(&buf, 3, 0), Some(&buf[3..]));
    for (place, len) in [(1, 3), (4, 0), (u64::MAX, u64::MAX), (1, u64::MAX)] {
        assert_eq!(part(&buf, place, len), None);
    }
}
