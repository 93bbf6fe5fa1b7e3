// Tagged bodies, with an allowance of tags.
use crate::refusal::{refuse, Refusal};
use crate::tags::{content_length, expected, tag, LongBlockTags};
use protocol::{Class, Tag, TagName};

pub struct Body {
    pub start: usize,
    pub len: usize,
    pub number: u8,
    pub next: usize,
}

// The three answers where a body may stand; with a body and with a refusal the tags read after the opening.
pub enum OptionalBody {
    Present(Body, u64),
    // With the tag found, none at the buffer's end.
    Absent(Option<Tag>),
    Refused(Refusal, u64),
}

// The body at a place, and the tags read after the opening.
pub fn body(
    allowance: u64,
    long: LongBlockTags,
    buf: &[u8],
    place: usize,
) -> (Result<Body, Refusal>, u64) {
    let opening = tag(long, buf, place).and_then(|(tag, start)| match tag.name.class {
        Class::Opening => Ok((tag.name.number, start)),
        _ => Err(Refusal::Tag(6, tag)),
    });
    match opening {
        Ok((number, start)) => after_opening(number, allowance, long, buf, start),
        Err(refusal) => (Err(refusal), 0),
    }
}

// The body at a place whose opening has this number, and the tags read after the opening.
pub fn body_for(
    number: u8,
    allowance: u64,
    long: LongBlockTags,
    buf: &[u8],
    place: usize,
) -> (Result<Body, Refusal>, u64) {
    match expected(TagName { class: Class::Opening, number }, long, buf, place) {
        Ok((_, start)) => after_opening(number, allowance, long, buf, start),
        Err(refusal) => (Err(refusal), 0),
    }
}

// The body at a place if an opening of this number stands there.
pub fn optional_body(
    number: u8,
    allowance: u64,
    long: LongBlockTags,
    buf: &[u8],
    place: usize,
) -> OptionalBody {
    if place == buf.len() {
        return OptionalBody::Absent(None);
    }
    let (found, start) = match tag(long, buf, place) {
        Ok(read) => read,
        Err(refusal) => return OptionalBody::Refused(refusal, 0),
    };
    if found.name != (TagName { class: Class::Opening, number }) {
        return OptionalBody::Absent(Some(found));
    }
    match after_opening(number, allowance, long, buf, start) {
        (Ok(body), count) => OptionalBody::Present(body, count),
        (Err(refusal), count) => OptionalBody::Refused(refusal, count),
    }
}

// Reads items until openings and closings of the number are balanced by one closing more.
fn after_opening(
    number: u8,
    allowance: u64,
    long: LongBlockTags,
    buf: &[u8],
    start: usize,
) -> (Result<Body, Refusal>, u64) {
    let (mut place, mut count, mut open) = (start, 0, 1);
    loop {
        if count == allowance {
            return (refuse(14, count as usize), count);
        }
        let (tag, next) = match tag(long, buf, place) {
            Ok(read) => read,
            Err(refusal) => return (Err(refusal), count),
        };
        count += 1;
        match tag.name.class {
            Class::Opening if tag.name.number == number => open += 1,
            Class::Closing if tag.name.number == number => open -= 1,
            _ => {}
        }
        if open == 0 {
            return (Ok(Body { start, len: place - start, number, next }), count);
        }
        place = next + content_length(tag);
    }
}
