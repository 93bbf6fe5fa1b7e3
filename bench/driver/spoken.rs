// The port's answer in the words of the program replay, for what the original cannot be asked: writes, segments, the walk, optional bodies, rejects, aborts and object identifiers read.
use crate::answer::Answer;
use protocol::{put_hex, Read, Request};

pub fn spoken(request: &Request, answer: &Answer) -> String {
    let numbers = answer.numbers.map(|number| number.unwrap_or(0));
    let [refused, next, first, a, b, count, ..] = numbers;
    match request {
        Request::Write { .. } => {
            let mut words = match refused {
                0 => format!("ok {next} "),
                _ => format!("refused {refused} {a} "),
            };
            put_hex(&answer.buffer, &mut words);
            words
        }
        Request::Segments { .. } => {
            let mut words = match (refused, first) {
                (0, 1) => format!("more {next} {a} ; "),
                (0, _) => format!("finished {next} {a} ; "),
                _ => format!("refused {refused} {a} ; "),
            };
            put_hex(&answer.buffer, &mut words);
            words
        }
        Request::Read { what: Read::Walk, .. } => match refused {
            0 => format!("ok {first}"),
            _ => format!("refused {refused} {a} {count}"),
        },
        Request::Read { what: Read::OptionalBody { .. }, .. } => optional_body(numbers),
        Request::Read { what: Read::Header, .. } => header(numbers),
        _ => format!("ok ObjectId {a} {b} {next}"),
    }
}

// A reject, an abort, or a refusal that carries an amount.
fn header(numbers: [u64; 8]) -> String {
    match numbers {
        [0, next, 6, id, reason, 0, 0, 0] => format!("ok reject {id} {reason} {next}"),
        [0, next, 7, server, id, reason, 0, 0] => format!("ok abort {server} {id} {reason} {next}"),
        [refused, _, _, carried, ..] => format!("refused {refused} {carried}"),
    }
}

// A body, what stands in its place, or a refusal that carries an amount.
fn optional_body(numbers: [u64; 8]) -> String {
    match numbers {
        [0, next, start, len, number, count, 1, 0] => {
            format!("ok {start} {len} {number} {next} {count}")
        }
        [0, _, 0, 0, 0, 0, 2, 0] => "absent end".to_string(),
        [0, _, class, number, value, 0, 2, 0] => {
            format!("absent {} {number} {value}", ["A", "C", "O", "X"][class as usize - 1])
        }
        [refused, _, _, carried, _, count, ..] => format!("refused {refused} {carried} {count}"),
    }
}
