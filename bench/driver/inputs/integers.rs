// Integers, read and written.
use super::{input, same, Beside, Input};

pub fn all() -> Vec<Input> {
    let mut inputs = reads();
    inputs.extend(same(
        "unsigned-write",
        &[
            ("1", "wuns - 7 0 16"),
            ("2", "wuns - 256 0 16"),
            ("4", "wuns - 4294967295 0 16"),
            ("8", "wuns - 18446744073709551615 0 16"),
            ("context-1", "wuns 1 85 0 16"),
        ],
    ));
    inputs.push(input("unsigned-write", "no-room", Beside::Panics, "wuns - 256 0 2".to_string()));
    inputs.extend(same(
        "signed-write",
        &[
            ("1", "wsig - -1 0 16"),
            ("2", "wsig - -129 0 16"),
            ("4", "wsig - 2147483647 0 16"),
            ("8", "wsig - -9223372036854775808 0 16"),
        ],
    ));
    inputs.extend(same(
        "enumerated-write",
        &[("1", "wenum - 3 0 16"), ("context-1", "wenum 1 85 0 16")],
    ));
    inputs.extend(same("boolean-write", &[("context", "wbool 2 1 0 16")]));
    inputs
}

fn reads() -> Vec<Input> {
    let mut inputs = same(
        "unsigned-read",
        &[
            ("1", "uns 1 0 07"),
            ("2", "uns 2 0 0100"),
            ("4", "uns 4 0 ffffffff"),
            ("8", "uns 8 0 ffffffffffffffff"),
            ("cut", "uns 4 0 0102"),
            ("length-9", "uns 9 0 010203040506070809"),
        ],
    );
    inputs.extend(same(
        "signed-read",
        &[
            ("1", "sig 1 0 ff"),
            ("2", "sig 2 0 ff7f"),
            ("4", "sig 4 0 7fffffff"),
            ("8", "sig 8 0 8000000000000000"),
            ("cut", "sig 4 0 0102"),
        ],
    ));
    inputs
}
