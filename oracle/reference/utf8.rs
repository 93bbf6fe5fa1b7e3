// RFC 3629, section 4: the well-formed sequences as its grammar lists them.
use crate::refusal::{refuse, Refusal};
use std::ops::RangeInclusive;

type Sequence = &'static [RangeInclusive<u8>];

const SEQUENCES: [Sequence; 9] = [
    &[0x00..=0x7F],
    &[0xC2..=0xDF, 0x80..=0xBF],
    &[0xE0..=0xE0, 0xA0..=0xBF, 0x80..=0xBF],
    &[0xE1..=0xEC, 0x80..=0xBF, 0x80..=0xBF],
    &[0xED..=0xED, 0x80..=0x9F, 0x80..=0xBF],
    &[0xEE..=0xEF, 0x80..=0xBF, 0x80..=0xBF],
    &[0xF0..=0xF0, 0x90..=0xBF, 0x80..=0xBF, 0x80..=0xBF],
    &[0xF1..=0xF3, 0x80..=0xBF, 0x80..=0xBF, 0x80..=0xBF],
    &[0xF4..=0xF4, 0x80..=0x8F, 0x80..=0xBF, 0x80..=0xBF],
];

// 10 with the first place where no well-formed sequence begins.
pub fn check(text: &[u8]) -> Result<(), Refusal> {
    let mut place = 0;
    while place < text.len() {
        match sequence_at(&text[place..]) {
            Some(length) => place += length,
            None => return refuse(10, place),
        }
    }
    Ok(())
}

// The length of the sequence with which bytes begin.
fn sequence_at(bytes: &[u8]) -> Option<usize> {
    let begins = |sequence: &&Sequence| {
        bytes.len() >= sequence.len()
            && sequence.iter().zip(bytes).all(|(range, byte)| range.contains(byte))
    };
    SEQUENCES.iter().find(begins).map(|sequence| sequence.len())
}
