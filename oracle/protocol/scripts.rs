// Scripts: requests that hold a state, so that one line has all calls, each behind the word `;`.
use crate::request::{Request, SegmentsCall};
use crate::words::Words;

// The most calls of a script.
const MOST_CALLS: usize = 400;

// What reads the script of a name up to the line's end; none where the name is no script's.
pub fn script(name: &str) -> Option<fn(&mut Words) -> Option<Request>> {
    match name {
        "segments" => Some(segments),
        _ => None,
    }
}

// The calls up to the line's end; none where one of them cannot be read, or is one too many.
fn calls<C>(words: &mut Words, call: impl Fn(&mut Words) -> Option<C>) -> Option<Vec<C>> {
    let mut calls = Vec::new();
    while let Some(word) = words.word() {
        if word != ";" || calls.len() == MOST_CALLS {
            return None;
        }
        calls.push(call(words)?);
    }
    Some(calls)
}

// A buffer's length, then the calls.
fn segments(words: &mut Words) -> Option<Request> {
    let capacity = words.capacity()?;
    let calls = calls(words, |words| segments_call(capacity, words))?;
    Some(Request::Segments { capacity, calls })
}

// A frame, or a part of the buffer to lend.
fn segments_call(capacity: usize, words: &mut Words) -> Option<SegmentsCall> {
    match words.word()? {
        "take" => Some(SegmentsCall::Take(words.bytes()?)),
        "lend" => words.number().filter(|lent| *lent <= capacity).map(SegmentsCall::Lend),
        _ => None,
    }
}
