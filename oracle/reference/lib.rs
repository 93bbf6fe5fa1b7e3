// Document 01 and requests K1, K2 and K9 of 02 a second time, written from these and from docs/DECISIONS.md alone: what the port must answer to each request.
pub mod bodies;
pub mod errors;
pub mod headers;
pub mod integers;
pub mod reading;
pub mod refusal;
pub mod segments;
pub mod tags;
pub mod utf8;
pub mod values;
pub mod walk;
pub mod writing;

mod answer;

pub use answer::{answer, answer_reading};
