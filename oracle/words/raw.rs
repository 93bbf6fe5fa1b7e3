//! What the crate's types cannot say, by its raw calls: a text that is not UTF-8, a service choice above 33, the tag that stands where a body is absent.
use protocol::Header;
use thaolisem::raw::{self, Numbers};
use thaolisem::{Refusal, Writer};

/// The case of a text, as bindings/c/thaolisem.h numbers it.
const TEXT: u8 = 7;

/// Where the next place stands among the eight numbers.
const NEXT: usize = 1;

/// The number that says that a body is absent.
const ABSENT: u64 = 2;

/// What stands where a body is absent: the buffer's end, told by class 0, or a tag. Nothing was read, so the next place is the place, and no tags are counted.
pub fn absent(number: u8, allowance: usize, buf: &[u8], place: usize) -> String {
    let told = raw::get_optional_tagged_body(number, allowance, buf, place);
    let [_, _, class, number, value, ..] = told;
    match ["end", "A", "C", "O", "X"].get(class as usize) {
        _ if told != [0, place as u64, class, number, value, 0, ABSENT, 0] => format!("{told:?}"),
        Some(end) if [class, number, value] == [0; 3] => format!("absent {end}"),
        Some(letter) => format!("absent {letter} {number} {value}"),
        None => format!("{told:?}"),
    }
}

/// Writes these bytes as a text, whatever they are.
pub fn text(bytes: &[u8], writer: &mut Writer) -> Result<(), Refusal> {
    let told = raw::encode_value(TEXT, [0; 4], bytes, writer.buf, writer.index);
    written(told, writer)
}

/// Writes a header by its kind and the numbers of its fields.
pub fn header(header: Header, writer: &mut Writer) -> Result<(), Refusal> {
    let bytes = |fields: [u8; 4]| fields.map(u64::from);
    let (kind, fields) = match header {
        Header::Request { segments, size, id, choice } => (0, bytes([segments, size, id, choice])),
        Header::Simple { id, choice } => (2, bytes([id, choice, 0, 0])),
        Header::Complex { id, choice } => (3, bytes([id, choice, 0, 0])),
        Header::Segment { id, sequence, window } => (4, bytes([id, sequence, window, 0])),
        Header::Error { id, choice, class, code } => {
            (5, [id.into(), choice.into(), class.into(), code.into()])
        }
        Header::Reject { id, reason } => (6, bytes([id, reason, 0, 0])),
        Header::Abort { server, id, reason } => (7, bytes([server.into(), id, reason, 0])),
    };
    let told = raw::encode_header(kind, fields, writer.buf, writer.index);
    written(told, writer)
}

/// Goes on behind what a write answered to have written.
fn written(told: Numbers, writer: &mut Writer) -> Result<(), Refusal> {
    raw::accepted(&told)?;
    writer.index = told[NEXT] as usize;
    Ok(())
}
