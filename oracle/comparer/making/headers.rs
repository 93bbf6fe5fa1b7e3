// Headers: every control byte, nibble and choice, cut at every length, and written.
use crate::making::lines::{in_rooms, read, write};

pub fn all() -> Vec<String> {
    let mut lines = Vec::new();
    for byte in 0..=255 {
        for length in 0..=5 {
            lines.push(read("header", 0, &[byte, 0x05, 0x01, 0x0C, 0x0C][..length.min(5)]));
            lines.push(read("header", 1, &[0xAA, byte, 0x01, 0x0C, 0x0C, 0x09][..length + 1]));
        }
        for control in [0x00, 0x02, 0x20, 0x2F, 0x30, 0x37, 0x40, 0x4F] {
            lines.push(read("header", 0, &[control, 0x75, 0x01, byte, 0x09]));
            lines.push(read("header", 0, &[control, 0x05, byte, 0x0C]));
            lines.push(read("header", 0, &[control, byte, 0x0E, 0x0E]));
        }
        for ask in ["wsim {/} {}", "wcom {} {/}", "wcom 1 {}", "wseg {} {/} 4", "wreq 7 4 {} {/}"] {
            let ask =
                ask.replace("{/}", &(255 - byte).to_string()).replace("{}", &byte.to_string());
            let few = if byte % 32 < 4 { 10 } else { 2 };
            lines.extend(in_rooms(&ask).into_iter().take(few));
        }
    }
    requests(&mut lines);
    lines
}

fn requests(lines: &mut Vec<String>) {
    for segments in [0, 1, 6, 7, 8, 15, 16, 255] {
        for size in [0, 1, 4, 5, 6, 15, 16, 255] {
            for choice in [0, 5, 12, 14, 15, 26, 33, 34, 35, 255] {
                for capacity in [4, 3, 6] {
                    lines.push(write(&format!("wreq {segments} {size} 9 {choice}"), 0, capacity));
                }
            }
        }
    }
}
