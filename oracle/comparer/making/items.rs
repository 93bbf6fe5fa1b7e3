// Item lists, as they should be and damaged, under bodies and walks.
use crate::making::blocks::{closing, opening};
use crate::making::lines::read;
use crate::making::random::Random;
use protocol::{Class, Tag, TagName};
use reference::tags::tag_bytes;

// The longest buffer drawn: a request's line has at most 140,000 characters.
const LONGEST: usize = 69_000;

pub fn draw(random: &mut Random) -> String {
    let mut buf = random_bytes_before(random);
    let place = buf.len();
    let number = block_number(random);
    let in_block = random.once_in(2);
    if in_block {
        buf.extend(opening(number, random.once_in(4)));
    }
    let lists = if random.once_in(2000) { 100 + random.up_to(1500) } else { 1 };
    (0..lists).for_each(|_| list(4, random, &mut buf));
    buf.truncate(LONGEST);
    if in_block {
        buf.extend(closing(number, random.once_in(4)));
    }
    if random.once_in(2) {
        damage(&mut buf, random);
    }
    let allowance = if random.once_in(4) { random.up_to(12) } else { buf.len() + random.up_to(3) };
    let asked = if random.once_in(6) { block_number(random) } else { number };
    let ask = match random.below(6) {
        0 | 1 => format!("body {allowance}"),
        2 => format!("bodyfor {asked} {allowance}"),
        3 => format!("opt {asked} {allowance}"),
        4 => "tag".to_string(),
        _ => "walk".to_string(),
    };
    read(&ask, place.min(buf.len()), &buf)
}

fn random_bytes_before(random: &mut Random) -> Vec<u8> {
    let count = if random.once_in(3) { random.up_to(5) } else { 0 };
    random.bytes(count)
}

// Any number, mostly one of four, so that blocks of one number meet.
fn block_number(random: &mut Random) -> u8 {
    match random.below(8) {
        0 => random.byte(),
        1 => random.of(&[14, 15, 16, 254, 255]),
        _ => random.below(4) as u8,
    }
}

// Up to five items; a block has a list inside.
pub fn list(depth: u32, random: &mut Random, buf: &mut Vec<u8>) {
    for _ in 0..random.up_to(5) {
        if depth > 0 && random.once_in(3) {
            let number = block_number(random);
            buf.extend(opening(number, random.once_in(4)));
            list(depth - 1, random, buf);
            buf.extend(closing(number, random.once_in(4)));
        } else {
            plain(random, buf);
        }
    }
}

fn plain(random: &mut Random, buf: &mut Vec<u8>) {
    let context = random.once_in(2);
    let class = if context { Class::Context } else { Class::Application };
    let number = match (context, random.below(4)) {
        (true, 0) => random.of(&[14, 15, 16, 254, 255]),
        _ => random.below(13) as u8,
    };
    let length = if random.once_in(30) { 250 + random.up_to(10) } else { random.up_to(7) };
    buf.extend(tag_bytes(Tag { name: TagName { class, number }, value: length as u32 }));
    if context || number != 1 {
        buf.extend(random.bytes(length));
    }
}

// One to three damages: a byte changed, a bit turned, a byte less or more, an end cut off.
pub fn damage(buf: &mut Vec<u8>, random: &mut Random) {
    for _ in 0..=random.up_to(2) {
        if buf.is_empty() {
            return;
        }
        let at = random.up_to(buf.len() - 1);
        match random.below(6) {
            0 => buf[at] = random.byte(),
            1 => buf[at] ^= 1 << random.below(8),
            2 => {
                buf.remove(at);
            }
            3 => buf.insert(at, random.byte()),
            4 => buf[at] = random.of(&[0x2E, 0x2F, 0x3E, 0x3F, 0x15, 0x1D, 0xFE, 0xFF, 0x05]),
            _ => buf.truncate(at),
        }
    }
}
