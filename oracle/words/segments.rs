//! Scripts of segments, asked of the crate.
use crate::refused;
use protocol::{put_hex, SegmentsCall};
use thaolisem::{Segments, Taken};

/// The answers of a script's calls, and last the whole buffer.
pub fn answer(capacity: usize, calls: &[SegmentsCall]) -> String {
    let mut buf = vec![0xAA; capacity];
    let mut lent = capacity;
    let mut segments = Segments::default();
    let mut answer = String::new();
    for call in calls {
        answer += &match call {
            SegmentsCall::Take(frame) => take(&mut segments, frame, &mut buf[..lent]),
            SegmentsCall::Lend(length) => {
                lent = *length;
                "ok".to_string()
            }
        };
        answer += " ; ";
    }
    put_hex(&buf, &mut answer);
    answer
}

/// What one frame answers; a refused one changes nothing.
fn take(segments: &mut Segments, frame: &[u8], buf: &mut [u8]) -> String {
    let before = segments.clone();
    let outcome = match segments.take(frame, buf) {
        Ok(Taken::More) => "more",
        Ok(Taken::Finished) => "finished",
        Err(_) if *segments != before => return "refused and the state changed".to_string(),
        Err(refusal) => return refused(refusal),
    };
    format!("{outcome} {} {}", segments.held(), segments.due())
}
