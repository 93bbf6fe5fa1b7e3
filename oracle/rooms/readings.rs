// "Reads" by 01's rule for tags and integers, without 18 and with overlong forms allowed; a string is read whole.
use crate::said::{Integer, Said, Under};
use protocol::{Class, Tag, TagName};
use reference::integers::{signed, unsigned};
use reference::tags::{tag, LongBlockTags};

// What a string says as an unsigned and as a signed integer, each under a tag that its writer takes.
pub fn readings(string: &[u8]) -> [Option<Said>; 2] {
    match tag(LongBlockTags::OpenAndClose, string, 0) {
        Ok((tag, next)) => [as_unsigned(tag, string, next), as_signed(tag, string, next)],
        Err(_) => [None; 2],
    }
}

// Whether a string says just this.
pub fn reads_as(said: Said, string: &[u8]) -> bool {
    readings(string).contains(&Some(said))
}

// An unsigned integer of the length that the tag tells, whose content ends at the string's end.
fn as_unsigned(tag: Tag, string: &[u8], next: usize) -> Option<Said> {
    let under = under(tag.name, &[2, 9])?;
    let (value, end) = unsigned(tag.value, string, next).ok()?;
    (end == string.len()).then_some(Said { under, integer: Integer::Unsigned(value) })
}

// A signed integer of the length that the tag tells, whose content ends at the string's end.
fn as_signed(tag: Tag, string: &[u8], next: usize) -> Option<Said> {
    let under = under(tag.name, &[3])?;
    let (value, end) = signed(tag.value, string, next).ok()?;
    (end == string.len()).then_some(Said { under, integer: Integer::Signed(value) })
}

// The tag, if it is one of these application numbers or any context number.
fn under(name: TagName, application: &[u8]) -> Option<Under> {
    match name.class {
        Class::Application if application.contains(&name.number) => {
            Some(Under::Application(name.number))
        }
        Class::Context => Some(Under::Context(name.number)),
        _ => None,
    }
}
