// Frames cut at every length, at the buffer's start and behind other bytes, also with bytes more.
use crate::making::errors::frame::START;
use crate::making::lines::read;

pub fn all() -> Vec<String> {
    let mut lines = Vec::new();
    for class in 1..=4 {
        for code in 1..=4 {
            cut(&[&START[..], &enumerated(class), &enumerated(code)].concat(), &mut lines);
        }
    }
    for control in [0x60, 0x6F, 0x70, 0x71, 0x7E, 0x7F] {
        cut(&[control, 0x07, 0x09], &mut lines);
    }
    lines
}

// An enumerated of so many bytes, at most four, each another one.
fn enumerated(length: u8) -> Vec<u8> {
    (0..=length).map(|place| if place == 0 { 0x90 + length } else { place * 17 }).collect()
}

fn cut(frame: &[u8], lines: &mut Vec<String>) {
    let longer = [frame, &[0x3F, 0x2E]].concat();
    for length in 0..=longer.len() {
        lines.push(read("header", 0, &longer[..length]));
        lines.push(read("header", 2, &[&[0x50, 0x71], &longer[..length]].concat()));
    }
}
