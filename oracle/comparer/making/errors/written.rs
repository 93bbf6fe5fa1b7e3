// Errors, rejects and aborts written: classes and codes at the ends of each length, every byte in the other fields.
use crate::making::lines::in_rooms;

const NUMBERS: [u32; 11] =
    [0, 1, 128, 255, 256, 65_535, 65_536, 16_777_215, 16_777_216, 1 << 31, u32::MAX];

pub fn all() -> Vec<String> {
    let mut lines = Vec::new();
    for class in NUMBERS {
        for code in NUMBERS {
            let few = if class == code || code == 0 { 10 } else { 4 };
            lines.extend(in_rooms(&format!("werr 7 12 {class} {code}")).into_iter().take(few));
        }
    }
    for byte in 0..=255u8 {
        for ask in ["werr {/} {} 2 32", "wrej {} {/}", "wabt 0 {} {/}", "wabt 1 {/} {}"] {
            let ask =
                ask.replace("{/}", &(255 - byte).to_string()).replace("{}", &byte.to_string());
            let few = if byte % 32 < 2 { 10 } else { 1 };
            lines.extend(in_rooms(&ask).into_iter().take(few));
        }
    }
    lines
}
