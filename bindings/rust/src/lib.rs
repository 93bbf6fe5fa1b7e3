//! Thaolisem for Rust: tags, integers, bodies, values and confirmed headers of BACnet, read and written by the proved
//! static library, under the names of embedded-bacnet; and complex answers in segments, put together by it.
//!
//! Every call answers on every input. A refused read moves no reader, a refused write moves no writer and changes no byte;
//! a refused segment leaves what was taken as it was.
//! Where the library is of another version than this crate, every call of it is refused 0.
#![no_std]
#![deny(unsafe_code)]

#[cfg(not(all(target_arch = "x86_64", target_pointer_width = "64", target_os = "linux")))]
compile_error!("thaolisem is for x86-64 Linux alone: the Rattle kit, which builds the static library behind it, compiles for no other system");

mod answer;
mod block;
mod body;
#[allow(unsafe_code)]
mod calls;
mod declared;
mod header;
mod integers;
pub mod raw;
mod reader;
mod segments;
mod service_choice;
mod tag;
#[cfg(test)]
mod unnamed;
mod utf8;
mod value;
mod version;
mod walk;
mod writer;

pub use answer::{Carried, Refusal};
pub use block::{encode_closing_tag, encode_context_bool, encode_opening_tag};
pub use body::{
    get_optional_tagged_body, get_optional_tagged_body_within, get_tagged_body,
    get_tagged_body_for_tag, get_tagged_body_for_tag_within, get_tagged_body_within, Body,
};
pub use header::{
    Abort, ComplexAck, ConfirmedBacnetError, ConfirmedRequest, Header, Reject, SegmentAck,
    SimpleAck,
};
pub use integers::{
    decode_signed, decode_unsigned, encode_application_enumerated, encode_application_signed,
    encode_application_unsigned, encode_context_enumerated, encode_context_unsigned,
    encode_enumerated, encode_signed, encode_unsigned,
};
pub use reader::Reader;
pub use segments::{Segments, Taken};
pub use service_choice::ConfirmedServiceChoice;
pub use tag::{ApplicationTagNumber, Tag, TagNumber};
pub use utf8::check_utf8;
pub use value::{
    ApplicationDataValue, BitString, CharacterString, Date, ObjectId, OctetString, Time,
};
pub use walk::walk;
pub use writer::Writer;

// A place has 64 bits here and in the library, so none is cut where one is told as the other.
const _: () = assert!(usize::BITS == 64);
