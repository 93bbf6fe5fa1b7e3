// Tags, read and written.
use super::{input, same, Beside, Input};

pub fn all() -> Vec<Input> {
    let mut inputs = same(
        "tag-read",
        &[
            ("one-byte", "tag 0 2107"),
            ("opening", "tag 0 3e3f"),
            ("answer", "tag 3 30010c0c0080000519553e44429000003f"),
            ("long-number", "tag 0 f92007"),
            ("value-in-1", "tag 0 75060041424344"),
            ("value-in-2", "tag 0 65fe012c"),
            ("value-in-4", "tag 0 65ff00010000"),
            ("empty", "tag 0 -"),
            ("cut", "tag 0 65fe01"),
        ],
    );
    inputs.extend(same(
        "tag-write",
        &[
            ("one-byte", "wtag A 2 1 0 8"),
            ("opening", "wtag O 3 0 0 8"),
            ("long-number", "wtag C 32 1 0 8"),
            ("value-in-1", "wtag A 7 6 0 8"),
            ("value-in-2", "wtag A 6 510 0 8"),
        ],
    ));
    inputs.push(input("tag-write", "value-in-4", Beside::Marker, "wtag A 6 65536 0 8".to_string()));
    inputs.push(input("tag-write", "no-room", Beside::Panics, "wtag A 7 6 0 1".to_string()));
    inputs
}
