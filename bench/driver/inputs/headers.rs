// Headers, read and written.
use super::{alone, input, same, Beside, Input};

pub fn all() -> Vec<Input> {
    let mut inputs = reads();
    inputs.extend(writes());
    inputs
}

fn reads() -> Vec<Input> {
    let mut inputs = same(
        "header-read",
        &[
            ("request", "header 0 0005010c0c008000051955"),
            ("simple", "header 0 20010f"),
            ("complex", "header 0 30010c0c0080000519553e44429000003f"),
            ("segment", "header 0 40010203"),
            ("empty", "header 0 -"),
            ("cut", "header 0 2001"),
            ("choice-35", "header 0 300123"),
            ("error", "header 0 50070c91029120"),
            ("error-in-4", "header 0 50070c94ffffffff94ffffffff"),
            ("error-cut", "header 0 50070c910291"),
            ("error-choice-35", "header 0 500723"),
            ("error-other-tag", "header 0 50070c21"),
            ("error-length-9", "header 0 50070c9509"),
        ],
    );
    inputs.extend(alone(
        "header-read",
        &[
            ("reject", "header 0 600709"),
            ("reject-cut", "header 0 6007"),
            ("abort", "header 0 710704"),
        ],
    ));
    inputs
}

fn writes() -> Vec<Input> {
    let mut inputs = same(
        "header-write",
        &[
            ("request", "wreq 7 4 1 12 0 16"),
            ("simple", "wsim 1 15 0 16"),
            ("complex", "wcom 1 12 0 16"),
            ("segment", "wseg 1 2 3 0 16"),
        ],
    );
    inputs.push(input("header-write", "no-room", Beside::Panics, "wsim 1 15 0 2".to_string()));
    inputs.extend(alone(
        "header-write",
        &[
            ("error", "werr 7 12 2 32 0 16"),
            ("error-in-4", "werr 7 12 4294967295 4294967295 0 16"),
            ("error-choice-34", "werr 7 34 2 32 0 16"),
            ("error-no-room", "werr 7 12 2 32 0 6"),
            ("reject", "wrej 7 9 0 16"),
            ("abort", "wabt 1 7 4 0 16"),
        ],
    ));
    inputs
}
