//! The tags that open and close a block, and a boolean under a context tag.
use crate::answer::Refusal;
use crate::calls;
use crate::tag::{Tag, TagNumber};
use crate::writer::Writer;

/// Writes the tag that opens a block.
#[inline]
pub fn encode_opening_tag(writer: &mut Writer, tag_number: u8) -> Result<(), Refusal> {
    Tag::new(TagNumber::ContextSpecificOpening(tag_number), 0).encode(writer)
}

/// Writes the tag that closes a block.
#[inline]
pub fn encode_closing_tag(writer: &mut Writer, tag_number: u8) -> Result<(), Refusal> {
    Tag::new(TagNumber::ContextSpecificClosing(tag_number), 0).encode(writer)
}

/// Writes a boolean under a context tag, as one byte of content.
#[inline]
pub fn encode_context_bool(
    writer: &mut Writer,
    tag_number: u8,
    value: bool,
) -> Result<(), Refusal> {
    let told = calls::encode_context_bool(tag_number, value.into(), writer.buf, writer.index);
    writer.written(told)
}
