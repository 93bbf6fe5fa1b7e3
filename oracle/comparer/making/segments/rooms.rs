// Parts in too little room, in just enough and in more, also where fewer bytes are lent than are held, and then more again.
use crate::making::segments::frame::{lend, script, Frame, LAST, MORE};

const CAPACITY: usize = 7;

// Second parts behind bytes held, first parts alone, and second parts where the whole buffer is lent from the first frame on.
pub fn all() -> Vec<String> {
    let mut lines = Vec::new();
    for held in [0, 1, 2, 4] {
        for part in 0..=3 {
            (0..=CAPACITY).for_each(|lent| lines.push(in_room(held, part, lent)));
        }
    }
    for capacity in 0..=6 {
        for part in 0..=6 {
            lines.push(script(capacity, &[Frame::new(LAST, 0, &bytes(part)).take()]));
        }
        for part in 0..=3 {
            let frames = [Frame::new(MORE, 0, &bytes(2)), Frame::new(LAST, 1, &bytes(part))];
            lines.push(script(capacity, &frames.map(|frame| frame.take())));
        }
    }
    lines
}

// So many bytes, each another one.
fn bytes(count: u8) -> Vec<u8> {
    (1..=count).map(|byte| byte * 17).collect()
}

// A part behind bytes held, where so many bytes are lent, and the same once more in the whole buffer.
fn in_room(held: u8, part: u8, lent: usize) -> String {
    let second = Frame::new(MORE, 1, &bytes(part)).take();
    let calls = [
        Frame::new(MORE, 0, &bytes(held)).take(),
        lend(lent),
        second.clone(),
        lend(CAPACITY),
        second,
        Frame::new(LAST, 2, &[0xEE]).take(),
    ];
    script(CAPACITY, &calls)
}
