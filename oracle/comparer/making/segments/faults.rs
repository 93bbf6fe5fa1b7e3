// Frames with every set of faults at once, so that the order of the refusals shows.
use crate::making::segments::frame::{lend, script, take, Frame, LAST, MORE};

type Fault = fn(&mut Frame);

// Faults of the frame itself: 17, 11, 24, 25 by the id, 25 by the choice, 26.
const FAULTS: [Fault; 6] = [
    |frame| frame.control &= 0xF7,
    |frame| frame.choice = 34,
    |frame| frame.window = 0,
    |frame| frame.id ^= 0x40,
    |frame| frame.choice ^= 1,
    |frame| frame.sequence = frame.sequence.wrapping_sub(1),
];

// How much of the buffer is lent, which has room for the part, too little room, and fewer bytes than are held.
const LENT: [usize; 3] = [6, 4, 1];

// Every set of faults in every room, with a part of three bytes and of none.
pub fn all() -> Vec<String> {
    let mut lines = Vec::new();
    for set in 0..1 << FAULTS.len() {
        for lent in LENT {
            for part in [&[0x31, 0x32, 0x33][..], &[]] {
                lines.push(faulty(set, lent, part));
            }
        }
    }
    lines
}

// The frame of a set of faults.
fn with_faults(set: usize, mut frame: Frame) -> Frame {
    for (place, fault) in FAULTS.iter().enumerate() {
        if set >> place & 1 == 1 {
            fault(&mut frame);
        }
    }
    frame
}

// The faults in a first frame, in a second one whole and cut, and after the finish.
fn faulty(set: usize, lent: usize, part: &[u8]) -> String {
    let first = with_faults(set, Frame::new(MORE, 0, part));
    let second = with_faults(set, Frame::new(LAST, 1, part));
    script(
        6,
        &[
            lend(if lent == 6 { 6 } else { 2 }),
            first.take(),
            lend(6),
            Frame::new(MORE, 0, &[0x21, 0x22]).take(),
            lend(lent),
            second.take(),
            take(&second.bytes()[..4]),
            lend(6),
            Frame::new(LAST, 1, &[0x23]).take(),
            lend(lent),
            with_faults(set, Frame::new(LAST, 2, part)).take(),
            take(&second.bytes()[..4]),
        ],
    )
}
