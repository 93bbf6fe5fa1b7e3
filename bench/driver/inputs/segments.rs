// First frames of an answer in segments.
use super::{alone, input, Beside, Input};

// The sizes of the part at which what a frame takes on top of copying is looked at.
const SIZES: [usize; 7] = [0, 1, 16, 100, 480, 1_471, 65_530];

pub fn all() -> Vec<Input> {
    let part = |size: usize| {
        let line = format!("segments 65535 ; take 3c0100040c{}", "5a".repeat(size));
        input("segment", &format!("part-{size}"), Beside::Alone, line)
    };
    let others = [
        ("last", "segments 65535 ; take 380100040c78"),
        ("empty", "segments 65535 ; take -"),
        ("other-type", "segments 65535 ; take 300100040c78"),
        ("choice-34", "segments 65535 ; take 3801000422"),
        ("window-0", "segments 65535 ; take 380100000c78"),
        ("other-sequence", "segments 65535 ; take 380101040c78"),
        ("no-room", "segments 0 ; take 380100040c78"),
    ];
    let mut inputs: Vec<Input> = SIZES.into_iter().map(part).collect();
    inputs.extend(alone("segment", &others));
    inputs
}
