// Scripts of segments: every byte of a header, faults together, rooms, wraps, long frames and buffers, lines that are no request, and whole answers drawn.
mod bytes;
mod drawn;
mod faults;
mod frame;
mod long;
mod rooms;
mod unreadable;
mod wraps;

pub use drawn::draw;
pub use long::all as all_long;

// All listed scripts but the long ones.
pub fn all() -> Vec<String> {
    [bytes::all(), faults::all(), rooms::all(), wraps::all(), unreadable::all()].concat()
}
