// Every byte in every field of a header, in a first frame and in a second, and headers cut short.
use crate::making::segments::frame::{script, take, Frame, LAST, MORE};

const CONTROLS: [u8; 12] = [0x00, 0x08, 0x20, 0x28, 0x30, 0x34, 0x38, 0x3B, 0x3C, 0x3F, 0x48, 0xFF];

// Five scripts for each byte, and one for each length of some headers.
pub fn all() -> Vec<String> {
    let mut lines = Vec::new();
    for byte in 0..=255 {
        lines.push(met_twice(|frame| frame.control = byte));
        lines.push(met_twice(|frame| frame.window = byte));
        lines.push(met_twice(|frame| frame.choice = byte));
        lines.push(ids(byte));
        lines.push(sequences(byte));
    }
    for control in CONTROLS {
        (0..=6).for_each(|length| lines.push(cut(control, length)));
    }
    lines
}

// A changed frame as the first one, the same change to the frame due then, and good frames behind it.
fn met_twice(change: impl Fn(&mut Frame)) -> String {
    let good = [0, 1, 2].map(|sequence| Frame::new(MORE, sequence, &[0x10 + sequence]));
    let mut changed = good.clone();
    changed.iter_mut().for_each(change);
    let last = Frame::new(LAST, 3, &[0x13]);
    let frames = [&changed[0], &good[0], &changed[1], &good[1], &changed[2], &good[2], &last];
    script(7, &frames.map(Frame::take))
}

// An answer of this id, met by frames of other ids.
fn ids(id: u8) -> String {
    let with = |id: u8, control: u8, sequence: u8| {
        Frame { id, ..Frame::new(control, sequence, &[id]) }.take()
    };
    let others = [id ^ 1, id ^ 0x80, !id];
    let mut calls = vec![with(id, MORE, 0)];
    calls.extend(others.map(|other| with(other, LAST, 1)));
    calls.push(with(id, MORE, 1));
    calls.extend(others.map(|other| with(other, LAST, 2)));
    calls.push(with(id, LAST, 2));
    script(3, &calls)
}

// This sequence at first, and behind two good frames.
fn sequences(sequence: u8) -> String {
    let asked = Frame::new(LAST, sequence, &[0x77]).take();
    let good = |sequence: u8| Frame::new(MORE, sequence, &[sequence]).take();
    script(4, &[asked.clone(), good(0), good(1), asked])
}

// So many bytes of a frame, at first, as the second one, and after the finish.
fn cut(control: u8, length: usize) -> String {
    let whole = |sequence: u8| Frame::new(control, sequence, &[0x55]).bytes();
    let cut = |sequence: u8| take(&whole(sequence)[..length]);
    let good = |control: u8, sequence: u8| Frame::new(control, sequence, &[0x66]).take();
    script(9, &[cut(0), good(MORE, 0), good(MORE, 1), cut(2), good(LAST, 2), cut(3), cut(2)])
}
