// The requests of oracle/words/README.md as types, read from their lines; shared by all programs of the oracle.
mod answering;
mod parse;
mod request;
mod scripts;
mod words;

pub use answering::{answer_all, LONGEST_LINE};
pub use parse::parse;
pub use request::{Class, Header, Read, Request, SegmentsCall, Tag, TagName, Value, Write};
pub use words::{hex, put_hex, Words};
