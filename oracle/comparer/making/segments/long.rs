// Frames and lent buffers around 65,535 bytes.
use crate::making::segments::frame::{lend, script, take, Frame, LAST, MORE};

// The lengths of a frame and of a buffer that are taken at most, and one byte more.
const LONGEST: usize = 65_535;
const TOO_LONG: usize = 65_536;
const HEADER: usize = 5;

// Long frames in every room, and each of the other faults beside a frame or a buffer that is too long.
pub fn all() -> Vec<String> {
    let mut lines = Vec::new();
    for capacity in [0, 4, 65_529, 65_530, LONGEST, TOO_LONG, 65_537, 70_000] {
        for length in [LONGEST, TOO_LONG, 66_000] {
            lines.push(script(capacity, &[long_frame(0, length)]));
        }
    }
    for capacity in [LONGEST, TOO_LONG, 70_000] {
        lines.push(lent_and_shortened(capacity));
        lines.push(faults_in_long_buffer(capacity));
        lines.push(second_in_long_buffer(capacity));
    }
    faults_in_long_frames(&mut lines);
    for rest in [4, 5, 6] {
        lines.push(filled(rest));
    }
    for part in [0, 1, 2] {
        lines.push(too_much_lent(part));
        lines.push(two_halves(part));
    }
    for length in [LONGEST, TOO_LONG, 66_000, 69_000] {
        lines.push(after_the_finish(length));
    }
    lines
}

// A good frame of so many bytes.
fn long_frame(sequence: u8, length: usize) -> String {
    Frame::new(MORE, sequence, &vec![0x5A; length - HEADER]).take()
}

// The whole of a long buffer lent, then less of it, then the whole once more.
fn lent_and_shortened(capacity: usize) -> String {
    let mut calls = vec![Frame::new(MORE, 0, &[0x01]).take()];
    for (sequence, lent) in [(0, LONGEST), (1, TOO_LONG.min(capacity)), (1, 1), (1, 2)] {
        calls.push(lend(lent));
        calls.push(Frame::new(MORE, sequence, &[0x02]).take());
    }
    calls.push(lend(capacity));
    calls.push(Frame::new(LAST, 2, &[0x03]).take());
    calls.push(take(&[]));
    script(capacity, &calls)
}

// Every other fault beside a buffer that may be too long.
fn faults_in_long_buffer(capacity: usize) -> String {
    let good = Frame::new(LAST, 0, &[0x01]);
    let calls = [
        take(&[]),
        take(&good.bytes()[..4]),
        Frame { control: 0x30, ..good.clone() }.take(),
        Frame { choice: 34, ..good.clone() }.take(),
        Frame { window: 128, ..good.clone() }.take(),
        Frame { sequence: 1, ..good.clone() }.take(),
        good.take(),
    ];
    script(capacity, &calls)
}

// The faults of a second frame beside such a buffer.
fn second_in_long_buffer(capacity: usize) -> String {
    let good = Frame::new(LAST, 1, &[0x02]);
    let calls = [
        lend(1),
        Frame::new(MORE, 0, &[0x01]).take(),
        lend(capacity),
        Frame { id: 2, ..good.clone() }.take(),
        Frame { choice: 13, ..good.clone() }.take(),
        Frame { sequence: 0, ..good.clone() }.take(),
        good.take(),
    ];
    script(capacity, &calls)
}

// Every other fault beside a frame that is too long, at first and as a second one.
fn faults_in_long_frames(lines: &mut Vec<String>) {
    let good = Frame::new(LAST, 1, &vec![0xA5; TOO_LONG - HEADER]);
    let faulty = [
        Frame { control: 0x30, ..good.clone() },
        Frame { choice: 34, ..good.clone() },
        Frame { window: 0, ..good.clone() },
        Frame { id: 2, ..good.clone() },
        Frame { choice: 13, ..good.clone() },
        Frame { sequence: 2, ..good.clone() },
        good,
    ];
    let first = Frame::new(MORE, 0, &[0x01]).take();
    for frame in faulty {
        lines.push(script(3, &[frame.take(), first.clone()]));
        lines.push(script(3, &[first.clone(), frame.take()]));
    }
}

// A buffer of the greatest length that is filled but for five bytes, and a part of so many.
fn filled(rest: usize) -> String {
    let second = Frame::new(LAST, 1, &vec![0x07; rest]).take();
    script(LONGEST, &[long_frame(0, LONGEST), second])
}

// A buffer filled up to the greatest length, then one byte more of it lent, and a part of so many bytes.
fn too_much_lent(part: usize) -> String {
    let second = Frame::new(MORE, 1, &[0x07; HEADER]).take();
    let third = Frame::new(LAST, 2, &vec![0x08; part]).take();
    script(TOO_LONG, &[lend(LONGEST), long_frame(0, LONGEST), second, lend(TOO_LONG), third])
}

// A long part behind a long part, in a buffer that wants one byte, is filled, or has one left.
fn two_halves(room: usize) -> String {
    let first = LONGEST / 2;
    let second = LONGEST - 1 - first;
    let calls = [
        Frame::new(MORE, 0, &vec![0x11; first]).take(),
        Frame::new(LAST, 1, &vec![0x22; second]).take(),
    ];
    script(first + second - 1 + room, &calls)
}

// A finished answer, then a frame of so many bytes and a buffer that is too long.
fn after_the_finish(length: usize) -> String {
    let calls =
        [lend(1), Frame::new(LAST, 0, &[0x78]).take(), take(&vec![0; length]), lend(TOO_LONG)];
    script(TOO_LONG, &[&calls[..], &[take(&[])]].concat())
}
