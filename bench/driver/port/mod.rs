// The port's side: the archive's functions, called as the C header says.
mod fields;
mod reads;
mod segments;
mod writes;

use crate::answer::Answer;
use protocol::Request;
use std::hint::black_box;

// So many calls of what a request asks for; the last answer.
pub fn ask(request: &Request, count: u64) -> Answer {
    match black_box(request) {
        Request::Read { what, place, buf } => {
            Answer::new(reads::read(what, buf, *place, count), Vec::new())
        }
        Request::Write { what, place, capacity } => {
            let mut buf = vec![0xAA; *capacity];
            let numbers = writes::write(what, &mut buf, *place, count);
            Answer::new(numbers, buf)
        }
        Request::Segments { capacity, calls } => {
            let mut buf = vec![0xAA; *capacity];
            let numbers = segments::take(calls, &mut buf, count);
            Answer::new(numbers, buf)
        }
    }
}
