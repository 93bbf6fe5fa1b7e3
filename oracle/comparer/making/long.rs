// Long buffers, around 65,535 bytes.
use crate::making::lines::{read, with_bytes, write};

const ASKS: [&str; 8] =
    ["walk", "body 70000", "bodyfor 3 70000", "opt 3 70000", "body 65533", "tag", "utf8", "rbyte"];

pub fn all() -> Vec<String> {
    let mut lines = Vec::new();
    for length in [65_534, 65_535, 65_536, 69_000] {
        readings(length, &mut lines);
        writings(length, &mut lines);
    }
    lines
}

fn readings(length: usize, lines: &mut Vec<String>) {
    let null = vec![0; length];
    let mut body = null.clone();
    body[0] = 0x3E;
    body[length - 1] = 0x3F;
    let mut closed_by_two = body.clone();
    closed_by_two[length - 2..].copy_from_slice(&[0xFF, 3]);
    let opened = vec![0x3E; length];
    let begun = [&null, &body, &closed_by_two, &opened].map(|buf| (buf, 0));
    for (buf, place) in begun.into_iter().chain([(&body, length - 1), (&body, length)]) {
        for ask in ASKS {
            lines.push(read(ask, place, buf));
        }
    }
    for kind in [0x65, 0x75, 0x85] {
        for missing in [0, 1] {
            let mut buf = null.clone();
            let content = (length - 4 + missing) as u16;
            buf[..4].copy_from_slice(&[kind, 0xFE, (content >> 8) as u8, content as u8]);
            lines.push(read("value", 0, &buf));
            lines.push(read("walk", 0, &buf));
        }
    }
    let mut error = null.clone();
    error[..7].copy_from_slice(&[0x50, 0x07, 0x0C, 0x91, 0x02, 0x91, 0x20]);
    error[length - 4..].copy_from_slice(&[0x50, 0x07, 0x0C, 0x92]);
    lines.push(read("header", 0, &error));
    lines.push(read("header", length - 4, &error));
    lines.push(read("tag", usize::MAX, &null));
    lines.push(read(&format!("part {length}"), 0, &null));
    lines.push(read(&format!("rslice {length}"), 1, &null));
}

fn writings(length: usize, lines: &mut Vec<String>) {
    for ask in [
        "wuns - 256",
        "wtag A 6 65535",
        "wopen 3",
        "wreq 7 4 1 12",
        "wval Date 2000 1 1 1",
        "werr 7 34 2 32",
        "wabt 1 7 4",
    ] {
        lines.push(write(ask, length - 4, length));
        lines.push(write(ask, length, length));
        lines.push(write(ask, usize::MAX, length));
    }
    for less in [0, 3, 4, 5] {
        let content = vec![0x61; length - less];
        for ask in ["wval Text", "wval Octets", "wval Bits 0", "wext"] {
            lines.push(write(&with_bytes(ask, &content), 0, 65_535));
        }
    }
    lines.push(write(&with_bytes("wext", &vec![0x61; length]), 1, 65_535));
    lines.push(write(&with_bytes("wval Octets", &vec![0x61; length]), 0, 10));
}
