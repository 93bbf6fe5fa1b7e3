// Bytes at a place of a buffer.
use crate::refusal::{refuse, Refusal};

pub const LONGEST: usize = 65_535;

// A reader's first tests: 1, then 2.
pub fn open(buf: &[u8], place: usize) -> Result<(), Refusal> {
    if buf.len() > LONGEST {
        return refuse(1, buf.len());
    }
    if place > buf.len() {
        return refuse(2, place);
    }
    Ok(())
}

// A single byte; 3 carries the end.
pub fn byte(buf: &[u8], place: usize) -> Result<(u8, usize), Refusal> {
    match buf.get(place) {
        Some(byte) => Ok((*byte, place + 1)),
        None => refuse(3, buf.len()),
    }
}

// So many bytes; 3 carries place plus count.
pub fn slice(count: usize, buf: &[u8], place: usize) -> Result<(&[u8], usize), Refusal> {
    let end = place + count;
    match buf.get(place..end) {
        Some(bytes) => Ok((bytes, end)),
        None => refuse(3, end),
    }
}
