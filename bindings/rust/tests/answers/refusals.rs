//! Each refusal that Rust can meet, once, by its number.
use crate::{at, write};
use thaolisem::*;

/// The number of a refusal.
fn number<T: std::fmt::Debug>(answer: Result<T, Refusal>) -> u64 {
    answer.unwrap_err().number
}

fn tag(bytes: &[u8]) -> Result<Tag, Refusal> {
    Tag::decode(&mut at(0), bytes)
}

fn value(bytes: &[u8]) -> Result<ApplicationDataValue<'_>, Refusal> {
    ApplicationDataValue::decode(&mut at(0), bytes)
}

fn header(bytes: &[u8]) -> Result<Header, Refusal> {
    Header::decode(&mut at(0), bytes)
}

#[test]
fn one_to_eighteen() {
    // one input for each row of 01's table but 19, which is the program's
    let context = TagNumber::ContextSpecific(0);
    let opening = Tag::new(TagNumber::ContextSpecificOpening(0), 1);
    let met = [
        number(tag(&[0; 65_536])),
        number(Tag::decode(&mut at(1), &[])),
        number(tag(&[])),
        number(Tag::decode_expected(&mut at(0), &[0x10], context)),
        number(Tag::new(context, 1).expect_value(2)),
        number(get_tagged_body(&mut at(0), &[0x10])),
        number(decode_unsigned(9, &mut at(0), &[])),
        number(value(&[0x00])),
        number(value(&[0x71, 0x01])),
        number(value(&[0x72, 0x00, 0xFF])),
        number(header(&[0x20, 0x00, 0x22])),
        number(write(9, |w| opening.encode(w))),
        number(write(0, |w| encode_opening_tag(w, 0))),
        number(get_tagged_body_within(0, &mut at(0), &[0x0E])),
        number(walk(&at(0), &[0x0F])),
        number(walk(&at(0), &[0x0E; 17])),
        number(header(&[0x10])),
        number(value(&[0x95, 0x05, 0x01, 0, 0, 0, 0])),
    ];
    assert!(met.iter().copied().eq(1..=18), "{met:?}");
}

#[test]
fn twenty_four_to_twenty_seven() {
    // one frame for each number that 02, K9 adds, behind a first one of invoke id 1 and choice 12
    let mut segments = Segments::default();
    let mut take = |frame: [u8; 5]| segments.take(&frame, &mut []);
    take([0x3C, 1, 0, 4, 12]).unwrap();
    let met = [
        number(take([0x38, 1, 1, 0, 12])),
        number(take([0x38, 2, 1, 4, 12])),
        number(take([0x38, 1, 2, 4, 12])),
        // the last frame, and one more
        number(take([0x38, 1, 1, 4, 12]).and_then(|_| take([0x38, 1, 2, 4, 12]))),
    ];
    assert!(met.iter().copied().eq(24..=27), "{met:?}");
}

#[test]
fn in_words() {
    assert_eq!(tag(&[]).unwrap_err().to_string(), "refused 3 carrying 0");
    let no_value = value(&[0x3E]).unwrap_err().to_string();
    let found = "Tag { number: ContextSpecificOpening(3), value: 0 }";
    assert_eq!(no_value, format!("refused 8 carrying {found}"));
}
