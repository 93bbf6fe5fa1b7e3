//! The crate's answers. Where expected ones come from: 01's examples and refusals, and the requests of 02; the standard's
//! own examples (ASHRAE 135, clauses 20.2.3 to 20.2.14); docs/DIFFERENCES.md, whose rows the oracle holds to the Rust and
//! to a second reading of 01; `core::str::from_utf8`. The given Rust has no test vectors. Each comment says which.
mod bodies;
mod bytes;
mod errors;
mod fields;
mod headers;
mod integers;
mod optional;
mod refusals;
mod segments;
mod states;
mod tags;
mod utf8;
mod values;
mod walks;

use thaolisem::{Carried, Reader, Refusal, Tag, Writer};

/// A reader at a place.
fn at(index: usize) -> Reader {
    Reader { index, ..Reader::default() }
}

/// A refusal that carries an amount.
fn refused(number: u64, amount: u64) -> Refusal {
    Refusal { number, carried: Carried::Amount(amount), tags: 0 }
}

/// A refusal that carries the tag found.
fn refused_tag(number: u64, tag: Tag) -> Refusal {
    Refusal { number, carried: Carried::TagFound(tag), tags: 0 }
}

/// A refusal with the tags read before it.
fn after(tags: usize, refusal: Refusal) -> Refusal {
    Refusal { tags, ..refusal }
}

/// What a read from the buffer's start answers, and where it ends; a refused one moves no reader.
fn read<'a, T>(
    buf: &'a [u8],
    call: impl FnOnce(&mut Reader, &'a [u8]) -> Result<T, Refusal>,
) -> Result<(T, usize), Refusal> {
    read_at(0, buf, call)
}

/// What a read from a place on answers, and where it ends; a refused one moves no reader.
fn read_at<'a, T>(
    place: usize,
    buf: &'a [u8],
    call: impl FnOnce(&mut Reader, &'a [u8]) -> Result<T, Refusal>,
) -> Result<(T, usize), Refusal> {
    let mut reader = at(place);
    let answer = call(&mut reader, buf);
    if answer.is_err() {
        assert_eq!(reader, at(place), "a refused read moves the reader");
    }
    answer.map(|value| (value, reader.index))
}

/// What a write into so many bytes answers: the bytes written; a refused one leaves all as it was.
fn write(
    room: usize,
    call: impl FnOnce(&mut Writer) -> Result<(), Refusal>,
) -> Result<Vec<u8>, Refusal> {
    let mut buf = vec![0xAA; room + 2];
    let mut writer = Writer { buf: &mut buf[..room + 1], index: 1 };
    let answer = call(&mut writer);
    let next = writer.index;
    let untouched = |from: usize| buf[from..].iter().all(|byte| *byte == 0xAA);
    match answer {
        Ok(()) => assert!(buf[0] == 0xAA && untouched(next), "another byte was changed"),
        Err(_) => assert!(next == 1 && untouched(0), "a refused write left a trace"),
    }
    answer.map(|()| buf[1..next].to_vec())
}

/// Whether two slices are the same part of one buffer.
fn same_part<T>(a: &[T], b: &[T]) -> bool {
    a.as_ptr() == b.as_ptr() && a.len() == b.len()
}
