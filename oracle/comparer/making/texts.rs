// Texts of up to four bytes over the boundaries of UTF-8, and longer ones drawn.
use crate::making::lines::{need, read, with_bytes, write};
use crate::making::random::Random;

const BOUNDARIES: [u8; 24] = [
    0x00, 0x7F, 0x80, 0x8F, 0x90, 0x9F, 0xA0, 0xBF, 0xC0, 0xC1, 0xC2, 0xDF, 0xE0, 0xE1, 0xEC, 0xED,
    0xEE, 0xEF, 0xF0, 0xF1, 0xF3, 0xF4, 0xF5, 0xFF,
];

pub const SIZE: u64 = 24 * 24 * 24 * 25;

// Three bytes, and one more or none.
pub fn nth(number: u64) -> String {
    let mut text: Vec<u8> = Vec::new();
    let mut rest = number;
    for _ in 0..3 {
        text.push(BOUNDARIES[(rest % 24) as usize]);
        rest /= 24;
    }
    if rest < 24 {
        text.push(BOUNDARIES[rest as usize]);
    }
    asked(number % 3, &text)
}

fn asked(way: u64, text: &[u8]) -> String {
    match way {
        0 => read("utf8", 0, text),
        1 => {
            let mut buf = vec![0x75, text.len() as u8 + 1, 0];
            buf.extend(text);
            read("value", 0, &buf)
        }
        _ => {
            let ask = with_bytes("wval Text", text);
            let room = need(&ask);
            write(&ask, 0, room)
        }
    }
}

// A text of up to 24 sequences, one of them perhaps damaged.
pub fn draw(random: &mut Random) -> String {
    let mut text = String::new();
    for _ in 0..random.up_to(24) {
        let most = random.of(&[0x7F, 0x7FF, 0xFFFF, 0x10_FFFF]);
        text.extend(char::from_u32(random.below(most + 1) as u32));
    }
    let mut bytes = text.into_bytes();
    if !bytes.is_empty() && random.once_in(2) {
        let at = random.up_to(bytes.len() - 1);
        bytes[at] = random.of(&BOUNDARIES);
    }
    asked(random.below(3), &bytes)
}
