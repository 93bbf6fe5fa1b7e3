// The Rust's tags and errors in the form of the protocol.
use embedded_bacnet::common::error::{Error, Unimplemented};
use embedded_bacnet::common::io::Reader;
use embedded_bacnet::common::tag::{Tag, TagNumber};
use protocol::{Class, TagName};

pub fn number_of(name: TagName) -> TagNumber {
    match name.class {
        Class::Application => TagNumber::Application(name.number.into()),
        Class::Context => TagNumber::ContextSpecific(name.number),
        Class::Opening => TagNumber::ContextSpecificOpening(name.number),
        Class::Closing => TagNumber::ContextSpecificClosing(name.number),
    }
}

pub fn printed(tag: &Tag) -> String {
    let (class, number) = match &tag.number {
        TagNumber::Application(name) => ('A', name.clone() as u8),
        TagNumber::ContextSpecific(number) => ('C', *number),
        TagNumber::ContextSpecificOpening(number) => ('O', *number),
        TagNumber::ContextSpecificClosing(number) => ('X', *number),
    };
    format!("{class} {number} {}", tag.value)
}

// An error; a tag's number that it carries is that of the tag at the place, whose value is read once more.
pub fn refusal(error: Error, buf: &[u8], place: usize) -> Option<String> {
    let found = |refused: u8, number: TagNumber| {
        let tag = Tag::decode(&mut Reader { index: place, end: buf.len() }, buf).ok()?;
        (tag.number == number).then(|| format!("refused {refused} {}", printed(&tag)))
    };
    match error {
        Error::ReaderEof(end) => Some(format!("refused 3 {end}")),
        Error::ExpectedTag(tag) => found(4, tag.actual),
        Error::TagValueInvalid((_, tag, _)) => Some(format!("refused 5 {}", printed(&tag))),
        Error::ExpectedOpeningTag(number) => found(6, number),
        Error::Length((_, length)) => Some(format!("refused 7 {length}")),
        Error::TagNotSupported((_, number)) => found(8, number),
        Error::InvalidVariant((_, number)) => Some(format!("refused 11 {number}")),
        Error::Unimplemented(Unimplemented::ConfirmedServiceChoice(choice)) => {
            Some(format!("unimplemented {}", choice as u8))
        }
        _ => None,
    }
}
