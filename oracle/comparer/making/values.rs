// Values read: every tag at every boundary of its length, with bytes missing and with bytes more.
use crate::making::lines::read;
use reference::tags::{application, tag_bytes};

const LENGTHS: [u32; 22] = [
    0,
    1,
    2,
    3,
    4,
    5,
    6,
    7,
    8,
    9,
    10,
    12,
    252,
    253,
    254,
    255,
    256,
    300,
    65_535,
    65_536,
    1 << 24,
    u32::MAX,
];

pub fn all() -> Vec<String> {
    let mut lines = Vec::new();
    for kind in 0..16 {
        for len in LENGTHS {
            let tag = tag_bytes(application(kind, len));
            for available in around(len) {
                for (first, rest) in [(0, 0), (0, 0x41), (0, 0xC3), (1, 0xFF), (0xFF, 0)] {
                    lines.push(value(&tag, available, first, rest));
                }
            }
        }
        for overlong in [&[4][..], &[254, 0, 4], &[255, 0, 0, 0, 4]] {
            let tag = [&[kind << 4 | 5], overlong].concat();
            lines.push(value(&tag, 4, 0, 0x42));
            lines.push(value(&tag, 3, 0, 0x42));
        }
    }
    lines
}

// No byte, one, one less than the length, the length, one more.
fn around(len: u32) -> [usize; 5] {
    let len = len.min(310) as usize;
    [0, 1, len.saturating_sub(1), len, len + 1]
}

fn value(tag: &[u8], available: usize, first: u8, rest: u8) -> String {
    let mut buf = vec![0x3E];
    buf.extend(tag);
    buf.extend((0..available).map(|n| if n == 0 { first } else { rest }));
    read("value", 1, &buf)
}
