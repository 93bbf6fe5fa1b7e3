// Tags at every boundary of their numbers and values, read and written.
use crate::making::blocks::{closing, opening};
use crate::making::lines::{in_rooms, read};

const NUMBERS: [u8; 8] = [0, 1, 13, 14, 15, 16, 254, 255];
const VALUES: [u32; 26] = [
    0,
    1,
    4,
    5,
    6,
    252,
    253,
    254,
    255,
    256,
    300,
    509,
    510,
    511,
    512,
    65_533,
    65_534,
    65_535,
    65_536,
    65_790,
    65_791,
    66_047,
    16_777_215,
    16_777_216,
    4_294_967_294,
    4_294_967_295,
];

pub fn all() -> Vec<String> {
    let mut lines = Vec::new();
    for value in VALUES {
        for number in [0, 1, 6, 12, 15] {
            lines.extend(in_rooms(&format!("wtag A {number} {value}")));
        }
        for number in NUMBERS {
            for class in ["C", "O", "X"] {
                lines.extend(in_rooms(&format!("wtag {class} {number} {value}")));
            }
        }
    }
    for number in 0..=255 {
        for ask in ["wopen {}", "wclose {}", "wbool {} 0", "wbool {} 1"] {
            let ask = ask.replace("{}", &number.to_string());
            let rooms = in_rooms(&ask);
            let few = if NUMBERS.contains(&number) { rooms.len() } else { 2 };
            lines.extend(rooms.into_iter().take(few));
        }
        lines.extend(in_rooms(&format!("wpush {number:02x}")).into_iter().take(2));
        long_forms(number, &mut lines);
        long_block(number, &mut lines);
    }
    (0..=10).for_each(|length| bytes_at_the_end(length, &mut lines));
    lines
}

// Every first byte before each marker and up to five bytes more.
fn long_forms(first: u8, lines: &mut Vec<String>) {
    let class = match first {
        0xFE => "O",
        0xFF => "X",
        _ => "C",
    };
    for marker in [5, 15, 253, 254, 255] {
        for more in 0..=5 {
            let mut buf = vec![first, marker];
            buf.extend((1..=more).map(|byte| if byte == 1 { marker } else { byte }));
            lines.push(read("tag", 0, &buf));
            let ask = match more % 3 {
                0 => format!("expval {marker}"),
                1 => format!("expect {class} {marker}"),
                _ => format!("expnum {class} {}", first >> 4),
            };
            lines.push(read(&ask, 0, &buf));
        }
    }
}

// A block of a number in the long form: its two tags and its body.
fn long_block(number: u8, lines: &mut Vec<String>) {
    let buf = [opening(number, true), closing(number, true)].concat();
    lines.push(read("tag", 0, &buf));
    lines.push(read("tag", 2, &buf));
    lines.push(read(&format!("bodyfor {number} 4"), 0, &buf));
}

// A few bytes read at every place of a short buffer.
fn bytes_at_the_end(length: u8, lines: &mut Vec<String>) {
    let buf: Vec<u8> = (0..length).map(|byte| byte * 25).collect();
    for place in 0..=buf.len() + 1 {
        for ask in ["rbyte", "rbytes 2", "rbytes 4", "rbytes 8"] {
            lines.push(read(ask, place, &buf));
        }
    }
}
