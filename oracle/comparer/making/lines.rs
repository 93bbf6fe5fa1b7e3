// Request lines.
use protocol::{parse, put_hex, Request};

// A read of a buffer at a place.
pub fn read(ask: &str, place: usize, buf: &[u8]) -> String {
    let mut line = format!("{ask} {place} ");
    put_hex(buf, &mut line);
    line
}

// An ask with bytes as its last word.
pub fn with_bytes(ask: &str, bytes: &[u8]) -> String {
    let mut words = format!("{ask} ");
    put_hex(bytes, &mut words);
    words
}

pub fn write(ask: &str, place: usize, capacity: usize) -> String {
    format!("{ask} {place} {capacity}")
}

// The bytes that a write needs by 01, or a few where it is refused.
pub fn need(ask: &str) -> usize {
    match parse(&write(ask, 0, 0)) {
        Some(Request::Write { what, .. }) => {
            reference::writing::bytes(&what).map_or(5, |bytes| bytes.len())
        }
        _ => 5,
    }
}

// A write at several places, with too little room, just enough and more.
pub fn in_rooms(ask: &str) -> Vec<String> {
    let need = need(ask);
    let rooms = [
        (0, need),
        (0, need.saturating_sub(1)),
        (0, need.saturating_sub(2)),
        (0, need + 1),
        (0, 0),
        (1, 1 + need),
        (2, 2),
        (3, 2 + need),
        (3, 5 + need),
        (1, 0),
    ];
    rooms.iter().map(|(place, capacity)| write(ask, *place, *capacity)).collect()
}
