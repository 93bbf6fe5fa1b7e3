// Error frames, piece by piece.
use crate::making::lines::read;

// Control byte, invoke id and service choice of most errors.
pub const START: [u8; 3] = [0x50, 0x07, 0x0C];

// A class or a code that is as it should be.
pub const GOOD: [u8; 2] = [0x91, 0x20];

// A frame of these pieces, read.
pub fn header(pieces: &[&[u8]]) -> String {
    read("header", 0, &pieces.concat())
}

// The tag of an enumerated of so many bytes in every form: the length in the tag's first byte, in one behind it, in two and in four.
pub fn forms(length: u32) -> Vec<Vec<u8>> {
    let mut forms = vec![[&[0x95, 255][..], &length.to_be_bytes()].concat()];
    if length <= 65_535 {
        forms.push([&[0x95, 254][..], &(length as u16).to_be_bytes()].concat());
    }
    if length <= 253 {
        forms.push(vec![0x95, length as u8]);
    }
    if length <= 4 {
        forms.push(vec![0x90 + length as u8]);
    }
    forms
}

// A number in so many bytes, eight at the most; none where they do not hold it.
pub fn content(number: u64, length: u32) -> Option<Vec<u8>> {
    let bytes = number.to_be_bytes();
    let (zeros, rest) = bytes.split_at(8 - length as usize);
    zeros.iter().all(|byte| *byte == 0).then(|| rest.to_vec())
}
