// Frames: a header and its items, as they should be and damaged.
use crate::making::errors::enumerated;
use crate::making::items::{damage, list};
use crate::making::lines::read;
use crate::making::random::Random;

pub fn draw(random: &mut Random) -> String {
    let mut buf = header(random);
    let after = buf.len();
    list(3, random, &mut buf);
    if random.once_in(2) {
        damage(&mut buf, random);
    }
    match random.below(5) {
        0 => read("walk", after.min(buf.len()), &buf),
        1 => {
            let mut shifted = random.bytes(3);
            shifted.extend(buf);
            read("header", 3, &shifted)
        }
        _ => read("header", 0, &buf),
    }
}

// Mostly what the Rust can read.
fn header(random: &mut Random) -> Vec<u8> {
    let choice = match random.below(4) {
        0 => random.byte(),
        1 => random.below(36) as u8,
        _ => random.of(&[12, 14, 15, 26]),
    };
    let nibbles = if random.once_in(6) {
        random.byte()
    } else {
        (random.below(8) * 16 + random.below(6)) as u8
    };
    let flags = random.of(&[0, 0, 1, 2, 4, 7, 8, 15]);
    match random.below(8) {
        0 => vec![flags, nibbles, random.byte(), choice],
        1 => vec![0x20 | flags, random.byte(), choice],
        2 => vec![0x30 | flags, random.byte(), choice],
        3 => vec![0x40 | flags, random.byte(), random.byte(), random.byte()],
        4 => {
            let start = [0x50 | flags, random.byte(), choice];
            [&start[..], &enumerated(random), &enumerated(random)].concat()
        }
        5 => vec![0x60 | flags, random.byte(), random.byte()],
        6 => vec![0x70 | flags, random.byte(), random.byte()],
        _ => vec![random.byte(), nibbles, random.byte(), choice],
    }
}
