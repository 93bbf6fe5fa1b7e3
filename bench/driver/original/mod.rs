// The original's side: its functions, called through pointers so that none is compiled into the loop.
mod reads;
mod writes;

use crate::answer::Answer;
use protocol::Request;
use std::hint::black_box;

// So many calls of what a request asks for; the last answer.
pub fn ask(request: &Request, count: u64) -> Answer {
    match black_box(request) {
        Request::Read { what, place, buf } => {
            Answer { numbers: reads::read(what, buf, *place, count), buffer: Vec::new() }
        }
        Request::Write { what, place, capacity } => {
            let mut buf = vec![0xAA; *capacity];
            let next = writes::write(what, &mut buf, *place, count);
            Answer::new([0, next as u64, 0, 0, 0, 0, 0, 0], buf)
        }
        Request::Segments { .. } => panic!("the original joins no segments"),
    }
}
