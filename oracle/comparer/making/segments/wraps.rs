// Answers of many frames, whose sequence comes to 0 again.
use crate::making::segments::frame::{script, Frame, LAST, MORE};

const NUMBERS: [usize; 11] = [1, 2, 16, 127, 128, 254, 255, 256, 257, 258, 300];

// So many frames with few bytes and many, in room for all of them and one byte less, and wrong frames next to the wrap.
pub fn all() -> Vec<String> {
    let mut lines = Vec::new();
    for number in NUMBERS {
        for every in [1, 3, 64] {
            lines.push(script(number, &frames(number, every)));
        }
        lines.push(script(number - 1, &frames(number, 1)));
    }
    lines.push(script(400, &frames(400, 1)));
    lines.push(script(400, &frames(401, 1)));
    for wrong in [1, 2, 254, 255] {
        lines.push(wrong_before_each(wrong));
    }
    lines.push(behind_the_wrap());
    lines
}

// One frame of an answer by its number and the last one's.
fn frame(number: usize, last: usize, every: usize) -> Frame {
    let part = if number % every == 0 { &[number as u8][..] } else { &[] };
    Frame::new(if number == last { LAST } else { MORE }, number as u8, part)
}

// So many frames; every first one of so many has a byte.
fn frames(number: usize, every: usize) -> Vec<String> {
    (0..number).map(|place| frame(place, number - 1, every).take()).collect()
}

// Frames up to behind the wrap; next to it each stands behind one whose sequence is off by so much.
fn wrong_before_each(off: u8) -> String {
    let mut calls = Vec::new();
    for number in 0..=258 {
        let good = frame(number, 258, 50);
        if number % 256 < 3 || number >= 253 {
            let sequence = good.sequence.wrapping_add(off);
            calls.push(Frame { sequence, ..good.clone() }.take());
        }
        calls.push(good.take());
    }
    script(6, &calls)
}

// Behind the wrap another id, another choice, and no room, then the frame that is due, and one after the finish.
fn behind_the_wrap() -> String {
    let mut calls = frames(257, 257);
    calls[256] = frame(256, 0, 257).take();
    let due = Frame::new(LAST, 1, &[0x41]);
    calls.push(Frame { id: 2, ..due.clone() }.take());
    calls.push(Frame { choice: 13, ..due.clone() }.take());
    calls.push(Frame { part: vec![0x41; 3], ..due.clone() }.take());
    calls.push(Frame { sequence: 0, ..due.clone() }.take());
    calls.push(due.take());
    calls.push(Frame::new(LAST, 2, &[]).take());
    script(3, &calls)
}
