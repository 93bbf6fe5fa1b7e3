// Reals and doubles at their boundaries: zeros, infinities and NaNs of every kind, read and written.
use crate::making::lines::{in_rooms, read};

const REALS: [u32; 14] = [
    0,
    1,
    0x007F_FFFF,
    0x0080_0000,
    0x3F80_0000,
    0x7F7F_FFFF,
    0x7F80_0000,
    0x7F80_0001,
    0x7FBF_FFFF,
    0x7FC0_0000,
    0x7FC0_0001,
    0x7FFF_FFFF,
    0x4290_0000,
    0x7FA5_5AA5,
];

pub fn all() -> Vec<String> {
    let mut lines = Vec::new();
    for real in REALS {
        for sign in [0, 0x8000_0000] {
            let bits = real | sign;
            let wide = u64::from(bits) << 32;
            lines.extend(in_rooms(&format!("wval Real {bits:08x}")));
            real_read(&bits.to_be_bytes(), &mut lines);
            for double in [wide, wide | 1, wide | u64::from(bits)] {
                doubles(double, &mut lines);
            }
        }
    }
    for double in [0x7FF0_0000_0000_0000, 0x7FF7_FFFF_FFFF_FFFF, 0x7FF8_0000_0000_0000] {
        for bits in [double, double + 1, double | 1 << 63] {
            doubles(bits, &mut lines);
        }
    }
    lines
}

fn doubles(bits: u64, lines: &mut Vec<String>) {
    lines.extend(in_rooms(&format!("wval Double {bits:016x}")));
    let mut buf = vec![0x45, 8];
    buf.extend(bits.to_be_bytes());
    lines.push(read("value", 0, &buf));
    lines.push(read("value", 0, &buf[..9]));
}

fn real_read(bytes: &[u8], lines: &mut Vec<String>) {
    let mut buf = vec![0x44];
    buf.extend(bytes);
    lines.push(read("value", 0, &buf));
    lines.push(read("value", 0, &buf[..4]));
}
