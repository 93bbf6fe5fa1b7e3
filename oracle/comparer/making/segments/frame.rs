// Frames of segments, field by field, and scripts of calls.
use crate::making::lines::with_bytes;

// More follow, and the last one.
pub const MORE: u8 = 0x3C;
pub const LAST: u8 = 0x38;

// A frame that need not be a good one.
#[derive(Clone)]
pub struct Frame {
    pub control: u8,
    pub id: u8,
    pub sequence: u8,
    pub window: u8,
    pub choice: u8,
    pub part: Vec<u8>,
}

impl Frame {
    // A frame of the answer that most scripts are about.
    pub fn new(control: u8, sequence: u8, part: &[u8]) -> Self {
        Frame { control, id: 1, sequence, window: 4, choice: 12, part: part.to_vec() }
    }

    // The header, and the part behind it.
    pub fn bytes(&self) -> Vec<u8> {
        let header = [self.control, self.id, self.sequence, self.window, self.choice];
        [&header, &self.part[..]].concat()
    }

    // The call that takes this frame.
    pub fn take(&self) -> String {
        take(&self.bytes())
    }
}

// The call that takes these bytes as a frame.
pub fn take(bytes: &[u8]) -> String {
    with_bytes("take", bytes)
}

// The call by which so many bytes are lent from then on.
pub fn lend(length: usize) -> String {
    format!("lend {length}")
}

// A script over a buffer of this length.
pub fn script(capacity: usize, calls: &[String]) -> String {
    let mut line = format!("segments {capacity}");
    for call in calls {
        line += " ; ";
        line += call;
    }
    line
}
