// Integers at every boundary of their lengths, read and written.
use crate::making::lines::{in_rooms, read};

pub fn all() -> Vec<String> {
    let mut lines = Vec::new();
    for value in unsigned_values() {
        written("uns", value, &mut lines);
        written("enum", value, &mut lines);
        lines.extend(in_rooms(&format!("wval Unsigned {value}")));
        if value <= u64::from(u32::MAX) {
            lines.extend(in_rooms(&format!("wval Enumerated {value}")));
        }
    }
    for value in signed_values() {
        written("sig", value, &mut lines);
        lines.extend(in_rooms(&format!("wval Signed {value}")));
    }
    for len in [0, 1, 2, 3, 4, 5, 6, 7, 8, 9, 10, 255, 256, 65_535, 65_536, u32::MAX] {
        contents_read(len, &mut lines);
    }
    lines
}

fn written(kind: &str, value: impl std::fmt::Display, lines: &mut Vec<String>) {
    for context in ["-", "0", "14", "15", "255"] {
        lines.extend(in_rooms(&format!("w{kind} {context} {value}")));
    }
}

// Next to the ends of each length's range, unsigned and signed.
fn unsigned_values() -> Vec<u64> {
    let mut values = vec![0, 1, 2, u64::MAX];
    for bytes in 1..=8u32 {
        let half = 1u64 << (8 * bytes - 1);
        values.extend([half - 1, half, half + 1]);
        if bytes < 8 {
            let whole = 1u64 << (8 * bytes);
            values.extend([whole - 1, whole, whole + 1]);
        }
    }
    values
}

fn signed_values() -> Vec<i64> {
    let mut values: Vec<i64> = unsigned_values().into_iter().map(|value| value as i64).collect();
    values.extend(unsigned_values().into_iter().map(|value| (value as i64).wrapping_neg()));
    values.sort_unstable();
    values.dedup();
    values
}

// Contents of the length and of one byte less and more, with each kind of first byte.
fn contents_read(len: u32, lines: &mut Vec<String>) {
    let near = len.min(12) as usize;
    for available in near.saturating_sub(1)..=near + 1 {
        for first in [0x00, 0x01, 0x7F, 0x80, 0xFF] {
            for rest in [0x00, 0xFF] {
                let mut buf = vec![rest; available + 1];
                buf[1.min(available)] = first;
                lines.push(read(&format!("uns {len}"), 1, &buf));
                lines.push(read(&format!("sig {len}"), 1, &buf));
                lines.push(read(&format!("rslice {len}"), 1, &buf));
                lines.push(read(&format!("part {len}"), 1, &buf));
            }
        }
    }
    for place in 0..=2 {
        lines.push(read(&format!("uns {len}"), place, &[0x80]));
        lines.push(read(&format!("rslice {len}"), place, &[0x80]));
    }
}
