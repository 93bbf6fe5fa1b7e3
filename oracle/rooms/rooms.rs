// The writes of one integer under one tag, in every room about what its shortest string needs.
use crate::run::Run;
use crate::said::Said;
use crate::words::{self, FILL};
use protocol::Write;
use reference::refusal::Refusal;
use reference::writing::write;

// The bytes kept for a buffer: place 1, a tag of three bytes, eight of content and one more.
const KEPT: usize = 13;

// The new place or the refusal, and the bytes after the write.
type Outcome = (Result<usize, Refusal>, [u8; KEPT]);

struct Case {
    what: Write,
    place: usize,
    room: usize,
}

// Holds the second reading to the shortest string in every room from none to one byte more than it needs, at place 0 and at place 1; where the port is to be asked, the same is kept for it.
pub fn hold(said: Said, shortest: &[u8], ask: bool, run: &mut Run) {
    for what in said.writes() {
        for (place, room) in places_and_rooms(shortest.len()) {
            let case = Case { what: what.clone(), place, room };
            let (expected, answered) = (case.expected(shortest), case.answered());
            if expected != answered {
                let (expected, answered) = (case.words(&expected), case.words(&answered));
                run.second_reading(&case.request(), &expected, &answered);
            }
            if ask {
                run.asked.push((case.request(), case.words(&expected)));
            }
        }
    }
}

// Each place with each room.
fn places_and_rooms(length: usize) -> impl Iterator<Item = (usize, usize)> {
    (0..=1).flat_map(move |place| (0..=length + 1).map(move |room| (place, room)))
}

impl Case {
    // What K14 asks for: the shortest string if it fits, else 13 with its length and no byte changed.
    fn expected(&self, shortest: &[u8]) -> Outcome {
        let mut bytes = [FILL; KEPT];
        if shortest.len() > self.room {
            return (Err(Refusal::Number(13, shortest.len() as u64)), bytes);
        }
        let next = self.place + shortest.len();
        bytes[self.place..next].copy_from_slice(shortest);
        (Ok(next), bytes)
    }

    // What the second reading does.
    fn answered(&self) -> Outcome {
        let mut bytes = [FILL; KEPT];
        (write(&self.what, &mut bytes[..self.capacity()], self.place), bytes)
    }

    // The buffer's length.
    fn capacity(&self) -> usize {
        self.place + self.room
    }

    // The request in words.
    fn request(&self) -> String {
        words::request(&self.what, self.place, self.capacity())
    }

    // An outcome in words.
    fn words(&self, (answer, bytes): &Outcome) -> String {
        words::answer(*answer, &bytes[..self.capacity()])
    }
}
