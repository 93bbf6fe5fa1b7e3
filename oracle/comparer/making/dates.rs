// Dates and times at their boundaries, read and written.
use crate::making::lines::{in_rooms, read};

pub fn all() -> Vec<String> {
    let mut lines = Vec::new();
    let years = (1895..=1905).chain(2150..=2160);
    for year in years.chain([0, 1, 255, 1643, 1644, 2411, 2412, 4459, 32_767, 65_534, 65_535]) {
        for rest in ["1 1 1", "12 31 7", "255 255 255", "0 0 0"] {
            lines.extend(in_rooms(&format!("wval Date {year} {rest}")));
        }
    }
    for time in ["0 0 0 0", "23 59 59 99", "255 255 255 255"] {
        lines.extend(in_rooms(&format!("wval Time {time}")));
    }
    for byte in 0..=255 {
        for tag in [0xA4, 0xB4, 0xA3, 0xA0, 0xC4] {
            lines.push(read("value", 0, &[tag, byte, 13, 32, byte]));
            lines.push(read("value", 0, &[tag, byte, 13, 32]));
        }
    }
    lines
}
