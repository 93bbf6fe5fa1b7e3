//! Tagged bodies: what stands between an opening tag and its closing tag.
use crate::answer::{accepted, part, Numbers, Refusal};
use crate::calls;
use crate::reader::Reader;

/// The place of the number that tells whether an optional body is there, and its two values.
const PRESENCE: usize = 6;
const PRESENT: u64 = 1;
const ABSENT: u64 = 2;

/// A body found.
#[derive(Debug, Clone, Copy, PartialEq, Eq)]
pub struct Body<'a> {
    /// Its bytes, without the opening and the closing tag.
    pub view: &'a [u8],
    /// The number of its opening and closing tags.
    pub number: u8,
    /// The tags read after the opening, the closing included.
    pub tags: usize,
}

/// The body whose opening tag is at the reader's place, and its number.
#[inline]
pub fn get_tagged_body<'a>(reader: &mut Reader, buf: &'a [u8]) -> Result<(&'a [u8], u8), Refusal> {
    let body = get_tagged_body_within(reader.view(buf).len(), reader, buf)?;
    Ok((body.view, body.number))
}

/// The body whose opening tag, of the number expected, is at the reader's place.
#[inline]
pub fn get_tagged_body_for_tag<'a>(
    reader: &mut Reader,
    buf: &'a [u8],
    expected_tag_number: u8,
) -> Result<&'a [u8], Refusal> {
    let allowance = reader.view(buf).len();
    let body = get_tagged_body_for_tag_within(allowance, reader, buf, expected_tag_number)?;
    Ok(body.view)
}

/// The body of the number expected if one stands at the reader's place; none, and the reader stays, at the reader's end or where another tag stands.
#[inline]
pub fn get_optional_tagged_body<'a>(
    reader: &mut Reader,
    buf: &'a [u8],
    expected_tag_number: u8,
) -> Result<Option<Body<'a>>, Refusal> {
    let allowance = reader.view(buf).len();
    get_optional_tagged_body_within(allowance, reader, buf, expected_tag_number)
}

/// The body at the reader's place, with so many tags read after its opening at the most.
#[inline]
pub fn get_tagged_body_within<'a>(
    allowance: usize,
    reader: &mut Reader,
    buf: &'a [u8],
) -> Result<Body<'a>, Refusal> {
    let view = reader.view(buf);
    found(calls::get_tagged_body(allowance, view, reader.index), reader, view)
}

/// The body of the number expected at the reader's place, with so many tags read after its opening at the most.
#[inline]
pub fn get_tagged_body_for_tag_within<'a>(
    allowance: usize,
    reader: &mut Reader,
    buf: &'a [u8],
    expected_tag_number: u8,
) -> Result<Body<'a>, Refusal> {
    let view = reader.view(buf);
    let told = calls::get_tagged_body_for_tag(expected_tag_number, allowance, view, reader.index);
    found(told, reader, view)
}

/// The body of the number expected if one stands at the reader's place, with so many tags read after its opening at the most.
#[inline]
pub fn get_optional_tagged_body_within<'a>(
    allowance: usize,
    reader: &mut Reader,
    buf: &'a [u8],
    expected_tag_number: u8,
) -> Result<Option<Body<'a>>, Refusal> {
    let view = reader.view(buf);
    let told = calls::get_optional_tagged_body(expected_tag_number, allowance, view, reader.index);
    found_or_absent(told, reader, view)
}

/// The body that the numbers tell, or that it is absent.
#[inline]
pub(crate) fn found_or_absent<'a>(
    told: Numbers,
    reader: &mut Reader,
    view: &'a [u8],
) -> Result<Option<Body<'a>>, Refusal> {
    accepted(&told)?;
    match told[PRESENCE] {
        PRESENT => found(told, reader, view).map(Some),
        ABSENT => Ok(None),
        _ => Err(Refusal::UNNAMED),
    }
}

/// The body that the numbers tell; the reader goes on behind its closing tag.
#[inline]
fn found<'a>(told: Numbers, reader: &mut Reader, view: &'a [u8]) -> Result<Body<'a>, Refusal> {
    let next = accepted(&told)?;
    let [_, _, start, len, number, tags, ..] = told;
    let body = Body {
        view: part(view, start, len).ok_or(Refusal::UNNAMED)?,
        number: u8::try_from(number).map_err(|_| Refusal::UNNAMED)?,
        tags: tags as usize,
    };
    reader.index = next;
    Ok(body)
}
