// Every byte in every field of a frame: control byte, id, choice and reason, and as the first of the tags of class and code.
use crate::making::errors::frame::{header, GOOD, START};
use crate::making::lines::read;

// What stands behind a tag's first byte: nothing, a byte, a content and a code, and a length in two bytes with these.
const TAILS: [&[u8]; 4] =
    [&[], &[0x05], &[0x02, 0x91, 0x20, 0x3F], &[0xFE, 0x00, 0x01, 0x02, 0x91, 0x20]];

pub fn all() -> Vec<String> {
    let mut lines = Vec::new();
    for byte in 0..=255 {
        lines.push(header(&[&[byte, 0x07, 0x0C], &GOOD, &GOOD, &[0x3F]]));
        lines.push(header(&[&[0x50, byte, 0x0C], &GOOD, &GOOD]));
        choice(byte, &mut lines);
        lines.push(header(&[&[0x60 | byte % 16, byte, 255 - byte]]));
        lines.push(header(&[&[0x70 | byte % 16, byte, 255 - byte]]));
        lines.push(read("header", 1, &[0x71, 0x70 | byte / 16, 255 - byte, byte, 0x3F]));
        for tail in TAILS {
            lines.push(header(&[&START, &[byte], tail]));
            lines.push(header(&[&START, &GOOD, &[byte], tail]));
        }
    }
    lines
}

// A choice before a whole error, before nothing, and before another tag.
fn choice(choice: u8, lines: &mut Vec<String>) {
    for behind in [&[0x91, 0x02, 0x91, 0x20][..], &[], &[0x0E]] {
        lines.push(header(&[&[0x50 | choice % 16, 0x07, choice], behind]));
    }
}
