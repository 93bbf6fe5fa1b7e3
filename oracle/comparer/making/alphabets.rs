// All short buffers over an alphabet of tag bytes, or of whole block tags.
use crate::making::lines::read;

const TAG_BYTES: [u8; 15] =
    [0x00, 0x02, 0x11, 0x15, 0x21, 0x25, 0x2E, 0x2F, 0x39, 0x3D, 0x3E, 0x3F, 0xF9, 0xFE, 0xFF];
const BLOCK_BYTES: [u8; 7] = [0x11, 0x15, 0x21, 0x2E, 0x2F, 0x3E, 0x3F];
// Openings and closings of 2, 3 and 16, in both forms where there are two, and an item.
const BLOCK_TAGS: [&[u8]; 11] = [
    &[0x21, 0x07],
    &[0x2E],
    &[0x2F],
    &[0xFE, 2],
    &[0xFF, 2],
    &[0x3E],
    &[0x3F],
    &[0xFE, 3],
    &[0xFF, 3],
    &[0xFE, 16],
    &[0xFF, 16],
];

const ASKS: [&str; 7] =
    ["body 9", "bodyfor 3 9", "bodyfor 2 9", "opt 3 9", "opt 2 9", "walk", "value"];
const BLOCK_ASKS: [&str; 2] = ["body 9", "walk"];
const BLOCK_TAG_ASKS: [&str; 4] = ["body 10", "bodyfor {} 10", "opt {} 10", "walk"];

// The openings before words of whole block tags, and their numbers.
const OPENINGS: [(&[u8], u8); 3] = [(&[0x3E], 3), (&[0xFE, 3], 3), (&[0xFE, 16], 16)];

// Words of one to four letters, of one to six, and of one to four whole tags.
pub const SIZE: u64 = words(15, 4) * 7;
pub const BLOCKS_SIZE: u64 = words(7, 6) * 2;
pub const BLOCK_TAGS_SIZE: u64 = words(11, 4) * 3 * 4;

const fn words(letters: u64, longest: u32) -> u64 {
    if longest == 0 {
        0
    } else {
        letters.pow(longest) + words(letters, longest - 1)
    }
}

pub fn nth(number: u64) -> String {
    let ask = ASKS[(number % 7) as usize];
    read(ask, 0, &word(number / 7, &TAG_BYTES))
}

// These stand behind an opening of 3.
pub fn nth_of_blocks(number: u64) -> String {
    let ask = BLOCK_ASKS[(number % 2) as usize];
    let mut bytes = vec![0x3E];
    bytes.extend(word(number / 2, &BLOCK_BYTES));
    read(ask, 0, &bytes)
}

// These stand behind an opening of 3 in either form or of 16, and are asked for by its number.
pub fn nth_of_block_tags(number: u64) -> String {
    let (opening, opened) = OPENINGS[(number / 4 % 3) as usize];
    let ask = BLOCK_TAG_ASKS[(number % 4) as usize].replace("{}", &opened.to_string());
    let mut bytes = opening.to_vec();
    bytes.extend(word(number / 12, &BLOCK_TAGS).concat());
    read(&ask, 0, &bytes)
}

// The words over an alphabet in the order of their lengths.
fn word<L: Copy>(mut number: u64, alphabet: &[L]) -> Vec<L> {
    let letters = alphabet.len() as u64;
    let mut length = 1;
    while number >= letters.pow(length) {
        number -= letters.pow(length);
        length += 1;
    }
    (0..length)
        .map(|_| {
            let letter = alphabet[(number % letters) as usize];
            number /= letters;
            letter
        })
        .collect()
}
