//! Where a buffer is written, and plain bytes put there.
use crate::answer::{accepted, Numbers, Refusal};
use crate::reader::LONGEST;

/// A buffer and the place of it where the next write begins.
#[derive(Debug)]
pub struct Writer<'a> {
    pub buf: &'a mut [u8],
    pub index: usize,
}

impl<'a> Writer<'a> {
    /// A writer at the buffer's start.
    #[inline]
    pub fn new(buf: &'a mut [u8]) -> Self {
        Writer { buf, index: 0 }
    }

    /// Writes one byte.
    #[inline]
    pub fn push(&mut self, item: u8) -> Result<(), Refusal> {
        self.extend_from_slice(&[item])
    }

    /// Writes these bytes.
    #[inline]
    pub fn extend_from_slice(&mut self, src: &[u8]) -> Result<(), Refusal> {
        for len in [self.buf.len(), src.len()] {
            if len > LONGEST {
                return Err(Refusal::carrying(1, len));
            }
        }
        let rest = self.buf.get_mut(self.index..).ok_or(Refusal::carrying(2, self.index))?;
        let room = rest.get_mut(..src.len()).ok_or(Refusal::carrying(13, src.len()))?;
        room.copy_from_slice(src);
        self.index += src.len();
        Ok(())
    }

    /// The bytes before the place; the whole buffer where the place was set past its end.
    #[inline]
    pub fn to_bytes(&self) -> &[u8] {
        self.buf.get(..self.index).unwrap_or(self.buf)
    }

    /// Goes on behind what a write answered to have written.
    #[inline]
    pub(crate) fn written(&mut self, told: Numbers) -> Result<(), Refusal> {
        self.index = accepted(&told)?;
        Ok(())
    }
}
