//! The program in words: answers each request by the Rust crate over the static library, and by its raw calls where the crate's types cannot say what is asked.
//! `oracle/compare` holds it to the given Rust and to 01 read a second time; nothing that it answers comes from there.
mod headers;
mod raw;
mod reading;
mod segments;
mod writing;

use protocol::Request;
use thaolisem::{Carried, Refusal, Tag, TagNumber};

fn main() -> std::io::Result<()> {
    protocol::answer_all(|request| match request {
        Request::Read { what, place, buf } => reading::answer(what, buf, *place),
        Request::Write { what, place, capacity } => writing::answer(what, *place, *capacity),
        Request::Segments { capacity, calls } => segments::answer(*capacity, calls),
    })
}

/// A tag as the answers print it.
fn printed(tag: Tag) -> String {
    let (class, number) = match tag.number {
        TagNumber::Application(number) => ('A', number as u8),
        TagNumber::ContextSpecific(number) => ('C', number),
        TagNumber::ContextSpecificOpening(number) => ('O', number),
        TagNumber::ContextSpecificClosing(number) => ('X', number),
    };
    format!("{class} {number} {}", tag.value)
}

/// A refusal as the answers print it, without the count.
fn refused(refusal: Refusal) -> String {
    let carried = match refusal.carried {
        Carried::Amount(amount) => amount.to_string(),
        Carried::TagFound(tag) => printed(tag),
    };
    format!("refused {} {carried}", refusal.number)
}

/// The tag number that a request names.
fn named(name: protocol::TagName) -> TagNumber {
    match name.class {
        protocol::Class::Application => TagNumber::Application(name.number.try_into().unwrap()),
        protocol::Class::Context => TagNumber::ContextSpecific(name.number),
        protocol::Class::Opening => TagNumber::ContextSpecificOpening(name.number),
        protocol::Class::Closing => TagNumber::ContextSpecificClosing(name.number),
    }
}
