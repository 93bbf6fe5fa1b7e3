// Integers: most significant byte first, signed in two's complement.
use crate::reading::slice;
use crate::refusal::{refuse, Refusal};

// The content of an integer: 1 to 8 bytes, else 7.
fn content(len: u32, buf: &[u8], place: usize) -> Result<(&[u8], usize), Refusal> {
    if len == 0 || len > 8 {
        return refuse(7, len as usize);
    }
    slice(len as usize, buf, place)
}

pub fn unsigned(len: u32, buf: &[u8], place: usize) -> Result<(u64, usize), Refusal> {
    let (bytes, next) = content(len, buf, place)?;
    Ok((number(bytes) as u64, next))
}

// An unsigned of 32 bits, else 18.
pub fn enumerated(len: u32, buf: &[u8], place: usize) -> Result<(u32, usize), Refusal> {
    let (value, next) = unsigned(len, buf, place)?;
    match u32::try_from(value) {
        Ok(value) => Ok((value, next)),
        Err(_) => refuse(18, 0),
    }
}

pub fn signed(len: u32, buf: &[u8], place: usize) -> Result<(i64, usize), Refusal> {
    let (bytes, next) = content(len, buf, place)?;
    let magnitude = number(bytes);
    let negative = bytes[0] >= 128;
    let value = if negative { magnitude - (1 << (8 * len)) } else { magnitude };
    Ok((value as i64, next))
}

// The number that bytes stand for.
pub fn number(bytes: &[u8]) -> i128 {
    bytes.iter().fold(0, |sum, byte| sum * 256 + i128::from(*byte))
}

// The fewest bytes, one at least, that hold an unsigned number.
pub fn unsigned_bytes(value: u64) -> Vec<u8> {
    let len = (1..8).find(|len| i128::from(value) < 1 << (8 * len)).unwrap_or(8);
    value.to_be_bytes()[8 - len..].to_vec()
}

// The fewest bytes, one at least, whose two's complement holds a signed number.
pub fn signed_bytes(value: i64) -> Vec<u8> {
    let holds = |len: &usize| {
        let half = 1i128 << (8 * len - 1);
        -half <= i128::from(value) && i128::from(value) < half
    };
    let len = (1..8).find(holds).unwrap_or(8);
    value.to_be_bytes()[8 - len..].to_vec()
}
