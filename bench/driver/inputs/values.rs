// Values, read and written.
use super::{input, same, Beside, Input};
use crate::buffers::{broken, mixed_text, plain_text, valued};

pub fn all() -> Vec<Input> {
    let mut inputs = reads();
    inputs.extend(long_reads());
    inputs.extend(writes());
    inputs.extend(long_writes());
    inputs
}

fn reads() -> Vec<Input> {
    let mut inputs = same(
        "value-read",
        &[
            ("boolean", "value 0 11"),
            ("real", "value 0 4442900000"),
            ("real-in-answer", "value 11 30010c0c0080000519553e44429000003f"),
            ("double", "value 0 45083ff0000000000000"),
            ("date", "value 0 a47e0b0f07"),
            ("time", "value 0 b40c1e0000"),
            ("text-5", "value 0 7506005a6f6e6534"),
            ("octets-4", "value 0 6401020304"),
            ("bits", "value 0 8204a0"),
            ("enumerated", "value 0 9103"),
            ("unsigned-1", "value 0 2107"),
            ("unsigned-4", "value 0 24ffffffff"),
            ("signed-1", "value 0 31ff"),
            ("signed-4", "value 0 347fffffff"),
            ("no-value", "value 0 0c00800005"),
            ("real-of-3", "value 0 43429000"),
            ("real-cut", "value 0 444290"),
            ("octets-cut", "value 0 65fe012c00"),
        ],
    );
    inputs.push(input("value-read", "object-id", Beside::Alone, "value 0 c400800005".to_string()));
    inputs
}

fn long_reads() -> Vec<Input> {
    let mut inputs = Vec::new();
    for size in [1_476, 65_535] {
        let content = size - 5;
        let rows = [
            (
                "text-plain",
                format!("value 0 {}", valued('7', format!("00{}", plain_text(content)))),
            ),
            (
                "text-mixed",
                format!("value 0 {}", valued('7', format!("00{}", mixed_text(content)))),
            ),
            (
                "text-broken",
                format!("value 0 {}", valued('7', format!("00{}", broken(plain_text(content))))),
            ),
            ("octets", format!("value 0 {}", valued('6', plain_text(content + 1)))),
        ];
        inputs.extend(rows.map(|(name, line)| {
            input("value-read", &format!("{name}-{size}"), Beside::Same, line)
        }));
    }
    inputs
}

fn writes() -> Vec<Input> {
    let mut inputs = same(
        "value-write",
        &[
            ("boolean", "wval Boolean 1 0 16"),
            ("real", "wval Real 42900000 0 16"),
            ("double", "wval Double 3ff0000000000000 0 16"),
            ("date", "wval Date 2026 11 15 7 0 16"),
            ("time", "wval Time 12 30 0 0 0 16"),
            ("text-5", "wval Text 5a6f6e6534 0 16"),
            ("octets-4", "wval Octets 01020304 0 16"),
            ("bits", "wval Bits 0 a0 0 16"),
            ("enumerated", "wval Enumerated 3 0 16"),
            ("unsigned-1", "wval Unsigned 7 0 16"),
            ("unsigned-4", "wval Unsigned 4294967295 0 16"),
            ("signed-1", "wval Signed -1 0 16"),
            ("signed-4", "wval Signed 2147483647 0 16"),
        ],
    );
    inputs.push(input(
        "value-write",
        "object-id",
        Beside::Alone,
        "wval ObjectId 2 5 0 16".to_string(),
    ));
    inputs.push(input(
        "value-write",
        "no-room",
        Beside::Panics,
        "wval Real 42900000 0 4".to_string(),
    ));
    inputs
}

fn long_writes() -> Vec<Input> {
    let mut inputs = Vec::new();
    for size in [1_476, 65_535] {
        let content = size - 5;
        let rows = [
            ("text-plain", format!("wval Text {} 0 {size}", plain_text(content))),
            ("text-mixed", format!("wval Text {} 0 {size}", mixed_text(content))),
            ("octets", format!("wval Octets {} 0 {size}", plain_text(content + 1))),
        ];
        inputs.extend(rows.map(|(name, line)| {
            input("value-write", &format!("{name}-{size}"), Beside::Marker, line)
        }));
    }
    inputs
}
