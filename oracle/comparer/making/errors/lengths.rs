// Classes and codes of every length, in every form that tells it, with numbers next to the ends of what the bytes hold.
use crate::making::errors::frame::{content, forms, header, GOOD, START};

// Those that an enumerated may not have: none, and more than eight bytes.
const NOT_ALLOWED: [u32; 11] = [0, 9, 10, 16, 253, 254, 255, 256, 65_535, 65_536, u32::MAX];

const NUMBERS: [u64; 14] = [
    0,
    1,
    255,
    256,
    65_535,
    65_536,
    16_777_215,
    16_777_216,
    4_294_967_295,
    4_294_967_296,
    4_294_967_297,
    1 << 40,
    1 << 63,
    u64::MAX,
];

pub fn all() -> Vec<String> {
    let mut lines = Vec::new();
    for length in 1..=8 {
        for form in forms(length) {
            for content in NUMBERS.iter().filter_map(|number| content(*number, length)) {
                whole(&[form.clone(), content].concat(), &mut lines);
            }
            let missing = vec![0; length as usize - 1];
            for content in [&missing[..], &[]] {
                cut(&[&form, content].concat(), &mut lines);
            }
        }
    }
    for length in NOT_ALLOWED {
        for form in forms(length) {
            for available in [0, 1, 8, 12] {
                whole(&[form.clone(), vec![0; available]].concat(), &mut lines);
            }
        }
    }
    lines
}

// As a class before a good code, and as a code before a byte.
fn whole(enumerated: &[u8], lines: &mut Vec<String>) {
    lines.push(header(&[&START, enumerated, &GOOD]));
    lines.push(header(&[&START, &GOOD, enumerated, &[0x00]]));
}

// As a class and as a code at the frame's end.
fn cut(enumerated: &[u8], lines: &mut Vec<String>) {
    lines.push(header(&[&START, enumerated]));
    lines.push(header(&[&START, &GOOD, enumerated]));
}
