// Tags, read and written.
use crate::integers::number;
use crate::reading::{byte, slice};
use crate::refusal::Refusal;
use protocol::{Class, Tag, TagName};

// How a context tag with field 15 and low bits 6 or 7 is read: as the opening or closing of the number in its second byte, or as an ordinary tag.
#[derive(Debug, Clone, Copy, PartialEq, Eq)]
pub enum LongBlockTags {
    OpenAndClose,
    Ordinary,
}

// The tag at a place.
pub fn tag(long: LongBlockTags, buf: &[u8], place: usize) -> Result<(Tag, usize), Refusal> {
    let (first, next) = byte(buf, place)?;
    let (name, next) = name(long, first, buf, next)?;
    let (value, next) = match first % 8 {
        5 => long_value(buf, next)?,
        6 | 7 => (0, next),
        inline => (u32::from(inline), next),
    };
    Ok((Tag { name, value }, next))
}

// Class and number; a context field of 15 has its number in the next byte.
fn name(
    long: LongBlockTags,
    first: u8,
    buf: &[u8],
    next: usize,
) -> Result<(TagName, usize), Refusal> {
    let field = first / 16;
    let context = first / 8 % 2 == 1;
    let class = match (context, first % 8) {
        (false, _) => Class::Application,
        (true, 6 | 7) if field == 15 && long == LongBlockTags::Ordinary => Class::Context,
        (true, 6) => Class::Opening,
        (true, 7) => Class::Closing,
        (true, _) => Class::Context,
    };
    let (number, next) = if context && field == 15 { byte(buf, next)? } else { (field, next) };
    Ok((TagName { class, number }, next))
}

// A value that follows the tag's first bytes.
fn long_value(buf: &[u8], place: usize) -> Result<(u32, usize), Refusal> {
    let (marker, next) = byte(buf, place)?;
    let count = match marker {
        254 => 2,
        255 => 4,
        value => return Ok((u32::from(value), next)),
    };
    let (bytes, next) = slice(count, buf, next)?;
    Ok((number(bytes) as u32, next))
}

// The tag at a place, which must have this class and number: else 4.
pub fn expected(
    name: TagName,
    long: LongBlockTags,
    buf: &[u8],
    place: usize,
) -> Result<(Tag, usize), Refusal> {
    let (tag, next) = tag(long, buf, place)?;
    if tag.name != name {
        return Err(Refusal::Tag(4, tag));
    }
    Ok((tag, next))
}

// The tag at a place, which must have this value: else 5.
pub fn expected_value(
    value: u32,
    long: LongBlockTags,
    buf: &[u8],
    place: usize,
) -> Result<(Tag, usize), Refusal> {
    let (tag, next) = tag(long, buf, place)?;
    if tag.value != value {
        return Err(Refusal::Tag(5, tag));
    }
    Ok((tag, next))
}

// The bytes of a tag that can be written.
pub fn tag_bytes(tag: Tag) -> Vec<u8> {
    let TagName { class, number } = tag.name;
    let low = match class {
        Class::Opening => 6,
        Class::Closing => 7,
        _ if tag.value > 4 => 5,
        _ => tag.value as u8,
    };
    let context = if class == Class::Application { 0 } else { 8 };
    let mut bytes = vec![number.min(15) * 16 + context + low];
    if context == 8 && number >= 15 {
        bytes.push(number);
    }
    match tag.value {
        0..=4 => {}
        5..=253 => bytes.push(tag.value as u8),
        254..=65_535 => {
            bytes.push(254);
            bytes.extend((tag.value as u16).to_be_bytes());
        }
        _ => {
            bytes.push(255);
            bytes.extend(tag.value.to_be_bytes());
        }
    }
    bytes
}

pub fn application(number: u8, value: u32) -> Tag {
    Tag { name: TagName { class: Class::Application, number }, value }
}

pub fn context(number: u8, value: u32) -> Tag {
    Tag { name: TagName { class: Class::Context, number }, value }
}

// The bytes that follow a tag as its content.
pub fn content_length(tag: Tag) -> usize {
    match (tag.name.class, tag.name.number) {
        (Class::Application, 1) => 0,
        (Class::Opening, _) | (Class::Closing, _) => 0,
        _ => tag.value as usize,
    }
}
