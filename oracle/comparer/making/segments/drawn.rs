// Whole answers cut into parts, with wrong frames, other lengths lent and frames after the finish between them.
use crate::making::items::damage;
use crate::making::random::Random;
use crate::making::segments::frame::{lend, script, take, Frame};

// The most calls of a script.
const CALLS: usize = 400;

const WINDOWS: [u8; 5] = [0, 1, 127, 128, 255];
const CHOICES: [u8; 5] = [0, 32, 33, 34, 255];
const CONTROLS: [u8; 10] = [0x00, 0x08, 0x28, 0x30, 0x34, 0x38, 0x3B, 0x3C, 0x3F, 0x48];

// A script that takes a whole answer, mostly in a buffer that it fills or nearly so.
pub fn draw(random: &mut Random) -> String {
    let frames = answer(random);
    let whole: usize = frames.iter().map(|frame| frame.part.len()).sum();
    let capacity = match random.below(4) {
        0 => whole.saturating_sub(1),
        1 => whole + random.up_to(4),
        2 => random.up_to(whole),
        _ => whole,
    };
    let mut calls = Vec::new();
    let mut held = 0;
    for frame in &frames {
        between(frame, held, capacity, random, &mut calls);
        calls.push(frame.take());
        held += frame.part.len();
    }
    for frame in frames.iter().take(random.up_to(2)) {
        between(frame, held, capacity, random, &mut calls);
        calls.push(frame.take());
    }
    calls.truncate(CALLS);
    script(capacity, &calls)
}

// The frames of an answer, mostly a few, sometimes so many that the sequence comes to 0 again.
fn answer(random: &mut Random) -> Vec<Frame> {
    let number = match random.below(60) {
        0 => 250 + random.up_to(50),
        1 => 1 + random.up_to(60),
        _ => 1 + random.up_to(5),
    };
    let longest = match number {
        0..=9 if random.once_in(40) => 300,
        _ => random.of(&[0, 1, 3, 3, 9, 9, 9, 24]),
    };
    let (id, choice) = (random.byte(), random.below(34) as u8);
    let frame = |place: usize| {
        let more = if place + 1 < number || random.once_in(12) { 4 } else { 0 };
        let length = random.up_to(longest);
        Frame {
            control: 0x38 | more | random.below(4) as u8,
            id,
            sequence: place as u8,
            window: 1 + random.below(127) as u8,
            choice,
            part: random.bytes(length),
        }
    };
    (0..number).map(frame).collect()
}

// What stands before a frame that is due: mostly nothing, else a wrong frame, or another part of the buffer lent for a while.
fn between(
    due: &Frame,
    held: usize,
    capacity: usize,
    random: &mut Random,
    calls: &mut Vec<String>,
) {
    match random.below(6) {
        0 | 1 => calls.push(take(&wrong(due, random))),
        2 => {
            let needed = held + due.part.len();
            let near = [held, held.saturating_sub(1), needed, needed.saturating_sub(1), 0];
            calls.push(lend(random.of(&near).min(capacity)));
            calls.push(if random.once_in(2) { due.take() } else { take(&wrong(due, random)) });
            calls.push(lend(capacity));
        }
        _ => {}
    }
}

// A frame with one to three things changed, sometimes cut or damaged.
fn wrong(due: &Frame, random: &mut Random) -> Vec<u8> {
    let mut frame = due.clone();
    for _ in 0..=random.up_to(2) {
        change(&mut frame, random);
    }
    let mut bytes = frame.bytes();
    match random.below(8) {
        0 => bytes.truncate(random.up_to(5)),
        1 => damage(&mut bytes, random),
        _ => {}
    }
    bytes
}

// One field changed: a frame repeated or skipped, another id or choice, a window at its ends, another control byte, a longer part.
fn change(frame: &mut Frame, random: &mut Random) {
    match random.below(9) {
        0 => frame.sequence = frame.sequence.wrapping_sub(1),
        1 => frame.sequence = frame.sequence.wrapping_add(1),
        2 => frame.sequence = random.byte(),
        3 => frame.id ^= 1 << random.below(8),
        4 => frame.choice = (frame.choice % 34 + 1 + random.below(33) as u8) % 34,
        5 => frame.choice = random.of(&CHOICES),
        6 => frame.window = random.of(&WINDOWS),
        7 => frame.control = random.of(&CONTROLS),
        _ => frame.part.extend([0xEE; 3]),
    }
}
