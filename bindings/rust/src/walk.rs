//! The strict walk over tags and blocks.
use crate::answer::{accepted, Refusal};
use crate::calls;
use crate::reader::Reader;

/// The number of tags from the reader's place to the end, where every block is closed by its own tag and all content is there.
#[inline]
pub fn walk(reader: &Reader, buf: &[u8]) -> Result<usize, Refusal> {
    let told = calls::walk(reader.view(buf), reader.index);
    accepted(&told)?;
    Ok(told[2] as usize)
}
