// Texts, octets and bit strings written at every boundary of their lengths, with every unused count of interest.
use crate::making::lines::{in_rooms, with_bytes};

const LENGTHS: [usize; 22] = [
    0, 1, 2, 3, 4, 5, 6, 250, 251, 252, 253, 254, 255, 256, 257, 299, 300, 508, 509, 510, 511, 767,
];

pub fn all() -> Vec<String> {
    let mut lines = Vec::new();
    for length in LENGTHS {
        let content = vec![0x61; length];
        lines.extend(in_rooms(&with_bytes("wval Text", &content)));
        lines.extend(in_rooms(&with_bytes("wval Octets", &content)));
        lines.extend(in_rooms(&with_bytes("wext", &content)));
        for unused in [0, 1, 7, 8, 255] {
            lines.extend(in_rooms(&with_bytes(&format!("wval Bits {unused}"), &content)));
        }
        if length > 0 {
            let mut bad = content.clone();
            bad[length - 1] = 0xC3;
            lines.extend(in_rooms(&with_bytes("wval Text", &bad)));
        }
    }
    for bit in 0..2 {
        lines.extend(in_rooms(&format!("wval Boolean {bit}")));
    }
    for (kind, instance) in [(0, 0), (8, 1), (1023, 4_194_303), (1024, 0), (0, 4_194_304)] {
        lines.extend(in_rooms(&format!("wval ObjectId {kind} {instance}")));
    }
    lines
}
