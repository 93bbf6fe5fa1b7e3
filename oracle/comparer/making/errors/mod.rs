// Error, reject and abort frames: every byte of each field, lengths and numbers at their ends, faults together, frames cut short, all of them written, and frames drawn.
mod bytes;
mod cuts;
mod drawn;
mod faults;
mod frame;
mod lengths;
mod written;

pub use drawn::{draw, enumerated};

// All listed frames and writes.
pub fn all() -> Vec<String> {
    [bytes::all(), lengths::all(), faults::all(), cuts::all(), written::all()].concat()
}
