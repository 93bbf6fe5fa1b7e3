//! Whether bytes are UTF-8.
use crate::answer::{refusal, Refusal};
use crate::calls;

/// The text of these bytes; 10 with the first place where no well-formed sequence begins.
#[inline]
pub fn check_utf8(bytes: &[u8]) -> Result<&str, Refusal> {
    calls::check_utf8(bytes).map_err(|told| refusal(&told))
}
