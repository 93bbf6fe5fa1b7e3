// Error, reject and abort frames drawn, perhaps damaged.
use crate::making::errors::frame::{content, forms};
use crate::making::items::damage;
use crate::making::lines::read;
use crate::making::random::Random;

pub fn draw(random: &mut Random) -> String {
    let before = if random.once_in(4) { random.up_to(3) } else { 0 };
    let mut buf = random.bytes(before);
    buf.extend(frame(random));
    let after = random.up_to(3);
    buf.extend(random.bytes(after));
    if random.once_in(3) {
        damage(&mut buf, random);
    }
    read("header", before.min(buf.len()), &buf)
}

// Mostly an error.
fn frame(random: &mut Random) -> Vec<u8> {
    let low = random.of(&[0, 0, 1, 2, 4, 8, 14, 15]);
    match random.below(8) {
        0 => vec![0x60 | low, random.byte(), random.byte()],
        1 => vec![0x70 | low, random.byte(), random.byte()],
        _ => {
            let choice = if random.once_in(4) { random.byte() } else { random.below(35) as u8 };
            let start = [0x50 | low, random.byte(), choice];
            [&start[..], &enumerated(random), &enumerated(random)].concat()
        }
    }
}

// An enumerated, now and then above 32 bits, with zeros before it or not, in any form of its tag.
pub fn enumerated(random: &mut Random) -> Vec<u8> {
    let number = random.integer();
    let number = if random.once_in(6) { number } else { u64::from(number as u32) };
    let length = if random.once_in(3) { random.below(8) as u32 + 1 } else { 1 };
    let held = (length..=8).find_map(|length| Some((length, content(number, length)?)));
    let (length, content) = held.unwrap_or_default();
    let forms = forms(length);
    let form = if random.once_in(3) { random.up_to(forms.len() - 1) } else { forms.len() - 1 };
    [&forms[form][..], &content].concat()
}
