// Values, bytes and writes drawn at random.
use crate::making::items::damage;
use crate::making::lines::{need, read, with_bytes, write as written};
use crate::making::random::Random;
use protocol::{parse, Request};

// The ask that writes some value.
fn value_ask(random: &mut Random) -> String {
    let length = if random.once_in(20) { random.up_to(600) } else { random.up_to(9) };
    let content = random.bytes(length);
    match random.below(12) {
        0 => format!("wval Boolean {}", random.below(2)),
        1 => format!("wval Real {:08x}", random.number() as u32),
        2 => format!("wval Double {:016x}", random.number()),
        3 => {
            let year =
                if random.once_in(2) { 1900 + random.below(256) } else { random.below(65_536) };
            format!("wval Date {year} {} {} {}", random.byte(), random.byte(), random.byte())
        }
        4 => format!(
            "wval Time {} {} {} {}",
            random.byte(),
            random.byte(),
            random.byte(),
            random.byte()
        ),
        5 => format!("wval ObjectId {} {}", random.below(1100), random.below(4_300_000)),
        6 => with_bytes("wval Text", &content.iter().map(|byte| byte % 128).collect::<Vec<_>>()),
        7 => with_bytes("wval Octets", &content),
        8 => with_bytes(&format!("wval Bits {}", random.below(10)), &content),
        9 => format!("wval Enumerated {}", random.integer() as u32),
        10 => format!("wval Unsigned {}", random.integer()),
        _ => format!("wval Signed {}", random.integer() as i64),
    }
}

// A value's bytes, perhaps damaged, read back.
pub fn value(random: &mut Random) -> String {
    let before = random.up_to(3);
    let mut buf = random.bytes(before);
    if let Some(Request::Write { what, .. }) = parse(&written(&value_ask(random), 0, 0)) {
        buf.extend(reference::writing::bytes(&what).unwrap_or_default());
    }
    if buf.get(before).is_some_and(|tag| tag >> 4 == 2) && random.once_in(2) {
        buf[before] += 0x70; // an unsigned of any size under the enumerated tag
    }
    let after = random.up_to(3);
    buf.extend(random.bytes(after));
    if random.once_in(2) {
        damage(&mut buf, random);
    }
    read("value", before.min(buf.len()), &buf)
}

// Any bytes under any read, at any place.
pub fn bytes(random: &mut Random) -> String {
    let length = random.up_to(24);
    let mut buf = random.bytes(length);
    for byte in &mut buf {
        if random.once_in(2) {
            *byte = random.of(&[0x3E, 0x3F, 0x21, 0x15, 0x75, 0x85, 0x95, 0xA5, 0xFE, 0xFF, 0, 4]);
        }
    }
    let farthest = if random.once_in(20) { length + 3 } else { length };
    let place = random.up_to(farthest);
    let len = random.up_to(10);
    let number = match buf.get(place + 1) {
        Some(second) if random.once_in(4) => *second,
        _ => random.below(16) as u8,
    };
    let classes: &[&str] = if number < 16 { &["A", "C", "O", "X"] } else { &["C", "O", "X"] };
    let class = random.of(classes);
    let ask = match random.below(17) {
        0 => "rbyte".to_string(),
        1 => format!("rbytes {}", random.of(&[2, 4, 8])),
        2 => format!("rslice {len}"),
        3 => format!("uns {len}"),
        4 => format!("sig {len}"),
        5 => "tag".to_string(),
        6 => format!("expect {class} {number}"),
        7 => format!("expnum {class} {number}"),
        8 => format!("expval {number}"),
        9 => format!("body {}", length + len),
        10 => format!("bodyfor {number} {}", length + len),
        11 => format!("opt {number} {}", length + len),
        12 => "walk".to_string(),
        13 => "header".to_string(),
        14 => format!("part {len}"),
        _ => "value".to_string(),
    };
    read(&ask, place, &buf)
}

// Any write, mostly where it fits or nearly so.
pub fn write(random: &mut Random) -> String {
    let context = if random.once_in(2) { "-".to_string() } else { random.byte().to_string() };
    let class = random.of(&["A", "C", "O", "X"]);
    let number = if class == "A" { random.byte() % 16 } else { random.byte() };
    let value = random.integer();
    let choice =
        if random.once_in(2) { random.of(&[5, 12, 14, 15, 26, 33, 34]) } else { random.byte() };
    let ask = match random.below(15) {
        0 => format!("wtag {class} {number} {}", value as u32),
        1 => format!("wuns {context} {value}"),
        2 => format!("wsig {context} {}", value as i64),
        3 => format!("wenum {context} {}", value as u32),
        4 => format!("wreq {} {} {} {choice}", random.below(18), random.below(18), random.byte()),
        5 => format!("wsim {} {choice}", random.byte()),
        6 => format!("wcom {} {choice}", random.byte()),
        7 => format!("wseg {} {} {}", random.byte(), random.byte(), random.byte()),
        8 => with_bytes("wext", &value.to_be_bytes()[..random.up_to(8)]),
        9 => {
            let code = random.integer() as u32;
            format!("werr {} {choice} {} {code}", random.byte(), value as u32)
        }
        10 => format!("wrej {} {}", random.byte(), random.byte()),
        11 => format!("wabt {} {} {}", random.below(2), random.byte(), random.byte()),
        _ => value_ask(random),
    };
    let (need, place) = (need(&ask), random.up_to(4));
    let capacity = match random.below(4) {
        0 => random.up_to(need + 4),
        1 => (place + need).saturating_sub(1),
        _ => place + need + random.up_to(3),
    };
    written(&ask, place, capacity)
}
