// The inputs of each operation, as requests of the program replay.
mod bodies;
mod headers;
mod integers;
mod segments;
mod tags;
mod texts;
mod values;

use protocol::Request;

// How the original stands beside the port on an input.
#[derive(Clone, Copy, PartialEq, Eq)]
pub enum Beside {
    // It answers the same.
    Same,
    // Row (a) of docs/DIFFERENCES.md: the marker of a tag's length is its low byte.
    Marker,
    // It panics where the port refuses, as 01 read a second time (oracle/reference) does.
    Panics,
    // It has no such call, or a stand-in answers; 01 read a second time does.
    Alone,
}

// An operation, the input's name, and the request's line.
pub struct Input {
    pub operation: &'static str,
    pub name: String,
    pub beside: Beside,
    line: String,
}

impl Input {
    // The request, read from its line.
    pub fn request(&self) -> Request {
        protocol::parse(&self.line).expect("a request of replay")
    }
}

fn input(operation: &'static str, name: &str, beside: Beside, line: String) -> Input {
    Input { operation, name: name.to_string(), beside, line }
}

// Inputs on which both answer the same: names and lines.
fn same(operation: &'static str, rows: &[(&str, &str)]) -> Vec<Input> {
    listed(operation, Beside::Same, rows)
}

// Inputs that the original has no call for: names and lines.
fn alone(operation: &'static str, rows: &[(&str, &str)]) -> Vec<Input> {
    listed(operation, Beside::Alone, rows)
}

fn listed(operation: &'static str, beside: Beside, rows: &[(&str, &str)]) -> Vec<Input> {
    rows.iter().map(|(name, line)| input(operation, name, beside, line.to_string())).collect()
}

// All inputs, operation by operation.
pub fn all() -> Vec<Input> {
    let parts = [
        tags::all(),
        integers::all(),
        bodies::all(),
        values::all(),
        texts::all(),
        headers::all(),
        segments::all(),
    ];
    parts.into_iter().flatten().collect()
}
