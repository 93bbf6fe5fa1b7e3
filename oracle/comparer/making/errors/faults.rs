// Choices, classes and codes with a fault each, so that the order of the refusals shows, and what the Rust reads behind a fault that it takes.
use crate::making::errors::frame::header;

const CHOICES: [u8; 2] = [33, 34];

// Good ones, of two lengths; then 18, 7 for no bytes, for nine and in a tag of low bits 6; 4 for another number, another class, an opening, an opening and a closing of 9 in two bytes, and Null; 3 in the tag, in its length, in the content, and for nothing at all.
const PIECES: [&[u8]; 16] = [
    &[0x91, 0x02],
    &[0x95, 0x05, 0x00, 0xFF, 0xFF, 0xFF, 0xFF],
    &[0x95, 0x05, 0x01, 0x00, 0x00, 0x00, 0x05],
    &[0x90],
    &[0x95, 0x09],
    &[0x96],
    &[0x21, 0x05],
    &[0x99, 0x01],
    &[0x0E],
    &[0xFE, 0x09],
    &[0xFF, 0x09],
    &[0x00],
    &[0x95],
    &[0x95, 0xFE, 0x00],
    &[0x92, 0x01],
    &[],
];

pub fn all() -> Vec<String> {
    let mut lines = Vec::new();
    for choice in CHOICES {
        for class in PIECES {
            for code in PIECES {
                lines.push(header(&[&[0x50, 0x07, choice], class, code]));
            }
        }
    }
    lines
}
