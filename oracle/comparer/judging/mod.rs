// Judges one request: whether the port answers as 01 asks, and the Rust as 01 says that it does.
mod domain;
mod errors;
mod kept;
mod reads;
mod writes;

use protocol::{Read, Request};
use reference::answer_reading;
use reference::tags::LongBlockTags;

pub enum Verdict {
    Equal,
    // Equal, and one of the rows that 01 keeps from the Rust.
    Kept(&'static str),
    // Different as these rows say.
    Row(String),
    // Not compared with the Rust, and why.
    Outside(&'static str),
    Unexplained(String),
}

// What the Rust must answer where rows make a difference.
pub struct Rust {
    pub answer: String,
    pub rows: Vec<&'static str>,
}

impl Rust {
    pub fn by(row: &'static str, answer: String) -> Option<Self> {
        Some(Rust { answer, rows: vec![row] })
    }

    pub fn panics(row: &'static str) -> Option<Self> {
        Rust::by(row, "panic".to_string())
    }
}

pub fn judge(request: &Request, rust: &str, port: &str, reference: &str) -> Verdict {
    if port != reference {
        return Verdict::Unexplained(format!("01 asks for: {reference}"));
    }
    let same = without_count(request, port);
    let ordinary = answer_reading(LongBlockTags::Ordinary, request);
    let ordinary = without_count(request, &ordinary);
    if let Some(outside) = domain::outside(request, ordinary) {
        return match outside.answer {
            Some(answer) if answer != rust => must(&answer),
            _ => Verdict::Outside(outside.why),
        };
    }
    let rows = match request {
        Request::Read { what, place, buf } => reads::rust(what, buf, *place, ordinary),
        Request::Write { what, place, capacity } => writes::rust(what, *place, *capacity, port),
        Request::Segments { .. } => None,
    };
    match rows {
        Some(by_rows) if by_rows.answer != rust => must(&by_rows.answer),
        Some(by_rows) if rust != same && !by_rows.rows.is_empty() => {
            Verdict::Row(by_rows.rows.join(" and "))
        }
        _ if rust != same => must(same),
        _ => kept::row(request, port).map_or(Verdict::Equal, Verdict::Kept),
    }
}

fn must(answer: &str) -> Verdict {
    Verdict::Unexplained(format!("the Rust must answer: {answer}"))
}

// An answer as far as the Rust can give it: it counts no tags.
fn without_count<'a>(request: &Request, answer: &'a str) -> &'a str {
    match request {
        Request::Read { what: Read::Body { .. } | Read::BodyFor { .. }, .. } => {
            answer.rsplit_once(' ').map_or(answer, |(rest, _)| rest)
        }
        _ => answer,
    }
}
