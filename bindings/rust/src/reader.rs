//! Where a buffer is read, and its plain bytes.
use crate::answer::Refusal;

/// The longest buffer that is read or written.
pub(crate) const LONGEST: usize = 65_535;

/// A place of a buffer and the end up to which it is read; the buffer's own end comes first where it is nearer.
#[derive(Debug, Clone, PartialEq, Eq)]
pub struct Reader {
    pub index: usize,
    pub end: usize,
}

/// A reader up to the end of whatever buffer it is given.
impl Default for Reader {
    #[inline]
    fn default() -> Self {
        Reader { index: 0, end: usize::MAX }
    }
}

impl Reader {
    /// A reader of so many bytes.
    #[inline]
    pub fn new_with_len(len: usize) -> Self {
        Reader { index: 0, end: len }
    }

    /// Moves the end.
    #[inline]
    pub fn set_len(&mut self, len: usize) {
        self.end = len;
    }

    /// Whether the reader stands at its own end or past it.
    #[inline]
    pub fn eof(&self) -> bool {
        self.index >= self.end
    }

    /// The byte at the place.
    #[inline]
    pub fn read_byte(&mut self, buf: &[u8]) -> Result<u8, Refusal> {
        let view = self.opened(buf)?;
        let byte = *view.get(self.index).ok_or(Refusal::carrying(3, view.len()))?;
        self.index += 1;
        Ok(byte)
    }

    /// So many bytes from the place on, as an array.
    #[inline]
    pub fn read_bytes<const COUNT: usize>(&mut self, buf: &[u8]) -> Result<[u8; COUNT], Refusal> {
        let mut bytes = [0; COUNT];
        bytes.copy_from_slice(self.read_slice(COUNT, buf)?);
        Ok(bytes)
    }

    /// So many bytes from the place on, as a part of the buffer.
    #[inline]
    pub fn read_slice<'a>(&mut self, len: usize, buf: &'a [u8]) -> Result<&'a [u8], Refusal> {
        let view = self.opened(buf)?;
        let end = self.index.saturating_add(len);
        let slice = view.get(self.index..end).ok_or(Refusal::carrying(3, end))?;
        self.index = end;
        Ok(slice)
    }

    /// The part of a buffer that is read.
    #[inline]
    pub(crate) fn view<'a>(&self, buf: &'a [u8]) -> &'a [u8] {
        buf.get(..self.end).unwrap_or(buf)
    }

    /// The part of a buffer that is read, after the tests for 1 and 2.
    #[inline]
    fn opened<'a>(&self, buf: &'a [u8]) -> Result<&'a [u8], Refusal> {
        let view = self.view(buf);
        if view.len() > LONGEST {
            return Err(Refusal::carrying(1, view.len()));
        }
        if self.index > view.len() {
            return Err(Refusal::carrying(2, self.index));
        }
        Ok(view)
    }
}
