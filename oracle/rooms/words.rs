// Writes and their answers in the words of the protocol.
use protocol::{put_hex, Write};
use reference::refusal::Refusal;

// What a buffer holds before a write.
pub const FILL: u8 = 0xAA;

// The request for a write of an integer at a place of a buffer.
pub fn request(what: &Write, place: usize, capacity: usize) -> String {
    let (name, number, value) = match what {
        Write::Unsigned(number, value) => ("wuns", number, value.to_string()),
        Write::Signed(number, value) => ("wsig", number, value.to_string()),
        Write::Enumerated(number, value) => ("wenum", number, value.to_string()),
        _ => unreachable!(),
    };
    let number = number.map_or("-".to_string(), |number| number.to_string());
    format!("{name} {number} {value} {place} {capacity}")
}

// The answer: the new place or the refusal, then the whole buffer.
pub fn answer(answer: Result<usize, Refusal>, buffer: &[u8]) -> String {
    let mut words = match answer {
        Ok(next) => format!("ok {next} "),
        Err(refusal) => format!("{refusal} "),
    };
    put_hex(buffer, &mut words);
    words
}

// The digits of a string.
pub fn hex(string: &[u8]) -> String {
    let mut digits = String::new();
    put_hex(string, &mut digits);
    digits
}
