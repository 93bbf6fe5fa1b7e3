// The strings that say an integer under a tag, made from 01's text alone: every form of the number, of the length and of the content.
use crate::said::{Integer, Said, Under};

// The most bytes of a content.
const LONGEST: usize = 8;

// Every string that says this, the shortest first, those of one length in the order of their bytes.
pub fn forms(said: Said) -> Vec<Vec<u8>> {
    let mut forms: Vec<_> =
        contents(said.integer).iter().flat_map(|content| items(said.under, content)).collect();
    forms.sort_by(|one, other| (one.len(), one).cmp(&(other.len(), other)));
    forms
}

// Strings that do not say this, each a form with one fault: a content of no byte or of nine, low bits 6 or 7 for the length, a byte more behind, or a byte less.
pub fn faulty(said: Said, forms: &[Vec<u8>]) -> Vec<Vec<u8>> {
    let mut faulty: Vec<_> = [&[][..], &nine(said.integer)]
        .into_iter()
        .flat_map(|content| items(said.under, content))
        .collect();
    for content in contents(said.integer) {
        for (first, number) in names(said.under) {
            faulty.extend([6, 7].map(|low| [&[first + low], &number[..], &content].concat()));
        }
    }
    for form in forms {
        faulty.extend([0x00, 0xFF].map(|behind| [&form[..], &[behind]].concat()));
        faulty.push(form[..form.len() - 1].to_vec());
    }
    faulty
}

// The eight bytes of an integer, most significant first, and the byte that may stand before them.
fn eight(integer: Integer) -> ([u8; LONGEST], u8) {
    match integer {
        Integer::Unsigned(value) => (value.to_be_bytes(), 0x00),
        Integer::Signed(value) => (value.to_be_bytes(), if value < 0 { 0xFF } else { 0x00 }),
    }
}

// A content of nine bytes, one too many.
fn nine(integer: Integer) -> Vec<u8> {
    let (bytes, before) = eight(integer);
    [&[before], &bytes[..]].concat()
}

// The contents of 1 to 8 bytes that stand for an integer: its eight bytes, and as many less as can go from their front.
fn contents(integer: Integer) -> Vec<Vec<u8>> {
    let (bytes, before) = eight(integer);
    let mut rest = &bytes[..];
    let mut contents = vec![rest.to_vec()];
    while may_go(integer, rest, before) {
        rest = &rest[1..];
        contents.push(rest.to_vec());
    }
    contents
}

// Whether the first byte says nothing: it is the one that may stand before, another follows, and of a signed integer that one has the same sign.
fn may_go(integer: Integer, bytes: &[u8], before: u8) -> bool {
    let signed = matches!(integer, Integer::Signed(_));
    bytes.len() > 1 && bytes[0] == before && !(signed && (bytes[1] ^ before) & 0x80 != 0)
}

// A content behind its tag, in every form of the tag.
fn items(under: Under, content: &[u8]) -> Vec<Vec<u8>> {
    let mut items = Vec::new();
    for (first, number) in names(under) {
        for (low, length) in lengths(content.len() as u8) {
            items.push([&[first + low], &number[..], &length, content].concat());
        }
    }
    items
}

// Every form of class and number: the first byte without its low bits, and the byte that may follow it.
fn names(under: Under) -> Vec<(u8, Vec<u8>)> {
    match under {
        Under::Application(number) => vec![(number * 16, vec![])],
        Under::Context(number @ 0..=14) => vec![(number * 16 + 8, vec![]), (0xF8, vec![number])],
        Under::Context(number) => vec![(0xF8, vec![number])],
    }
}

// Every form of a length below 254: the low bits, and the bytes that follow the tag's number.
fn lengths(length: u8) -> Vec<(u8, Vec<u8>)> {
    let mut forms =
        vec![(5, vec![length]), (5, vec![254, 0, length]), (5, vec![255, 0, 0, 0, length])];
    if length <= 4 {
        forms.push((length, vec![]));
    }
    forms
}
