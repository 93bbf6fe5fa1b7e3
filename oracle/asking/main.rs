// Asks the given Rust, one request a line; `panic` where it panics, `none` where it has no such call.
mod error_frames;
mod errors;
mod headers;
mod reading;
mod values;
mod writing;

use protocol::Request;
use std::panic::{catch_unwind, set_hook, AssertUnwindSafe};

fn main() -> std::io::Result<()> {
    set_hook(Box::new(|_| {}));
    protocol::answer_all(|request| {
        catch_unwind(AssertUnwindSafe(|| ask(request)))
            .unwrap_or_else(|_| Some("panic".to_string()))
            .unwrap_or_else(|| "none".to_string())
    })
}

fn ask(request: &Request) -> Option<String> {
    match request {
        Request::Read { what, place, buf } => reading::ask(what, buf, *place),
        Request::Write { what, place, capacity } => writing::ask(what, *place, *capacity),
        Request::Segments { .. } => None,
    }
}
