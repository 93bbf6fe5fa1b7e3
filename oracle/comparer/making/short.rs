// All buffers of up to two bytes, at every place, under every read.
use crate::making::lines::read;

const READS: u64 = 19;
const PAIRS: u64 = 1 + 256 * 2 + 65_536 * 3;

pub const SIZE: u64 = READS * PAIRS;

pub fn nth(number: u64) -> String {
    let (pair, ask) = (number / READS, number % READS);
    let (place, buf) = pair_of(pair);
    read(&ask_of(ask, place, &buf), place, &buf)
}

// A place and a buffer by their number.
fn pair_of(number: u64) -> (usize, Vec<u8>) {
    if number == 0 {
        return (0, vec![]);
    }
    let one = number - 1;
    if one < 512 {
        return ((one % 2) as usize, vec![(one / 2) as u8]);
    }
    let two = one - 512;
    let bytes = two / 3;
    ((two % 3) as usize, vec![(bytes / 256) as u8, bytes as u8])
}

fn ask_of(number: u64, place: usize, buf: &[u8]) -> String {
    let first = buf.get(place).copied().unwrap_or(0x3E);
    let other = buf.last().copied().unwrap_or(0) % 2;
    let told = number_told(first, buf.get(place + 1));
    let asks = [
        "rbyte", "rbytes 2", "rslice 1", "part 2", "uns 1", "uns 2", "sig 1", "sig 2", "tag",
        "walk", "value", "utf8", "header", "body 9",
    ];
    match number {
        14 => format!("bodyfor {} 9", told + other),
        15 => format!("opt {} 9", told + other),
        16 => format!("expect {}", tag_name(first, told)),
        17 => format!("expnum {}", tag_name(first, told + other)),
        18 => format!("expval {}", u32::from(first % 8) + u32::from(other)),
        _ => asks[number as usize].to_string(),
    }
}

// The number that a tag's bytes tell; for an odd one in the second byte the field's 15.
fn number_told(first: u8, second: Option<&u8>) -> u8 {
    match second {
        Some(second) if first >= 0xF8 && second % 2 == 0 => *second,
        _ => first >> 4,
    }
}

// The class that a tag's first byte tells, with a number.
fn tag_name(first: u8, number: u8) -> String {
    match first & 15 {
        0..=7 => format!("A {}", number % 16),
        14 => format!("O {number}"),
        15 => format!("X {number}"),
        _ => format!("C {number}"),
    }
}
