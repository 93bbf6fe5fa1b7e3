// Scripts of segments in numbers: a line for each frame, with the state and the lent part of the buffer as they stand before it.
use crate::asked::hex;
use crate::numbers::{accepted, line, refused, Carried};
use crate::Row;
use protocol::{SegmentsCall, Words};

// What an accepted frame answers.
const MORE: u64 = 1;
const FINISHED: u64 = 2;

// The state, the whole buffer, and how much of it is lent.
struct Script {
    state: State,
    buf: Vec<u8>,
    lent: usize,
}

// What the accepted frames have told so far.
#[derive(Default)]
struct State {
    begun: bool,
    finished: bool,
    id: u8,
    choice: u8,
    due: u8,
    held: usize,
}

// The rows of a script by the words of its answer; none where these are no answer to it, or end in another buffer than the accepted parts make.
pub fn rows(capacity: usize, calls: &[SegmentsCall], answer: &str) -> Option<Vec<Row>> {
    let mut script = Script { state: State::default(), buf: vec![0xAA; capacity], lent: capacity };
    let mut answers = answer.split(" ; ");
    let mut rows = Vec::new();
    for call in calls {
        match (call, answers.next()?) {
            (SegmentsCall::Take(frame), answer) => rows.push(script.row(frame, answer)?),
            (SegmentsCall::Lend(length), "ok") => script.lent = *length,
            _ => return None,
        }
    }
    let same = answers.next()? == hex(&script.buf) && answers.next().is_none();
    same.then_some(rows)
}

impl Script {
    // The row of one frame.
    fn row(&mut self, frame: &[u8], answer: &str) -> Option<Row> {
        let asked = format!("take_segment {} {} {}", self.state.lent(), hex(frame), self.lent());
        let mut words = Words::of(answer);
        let numbers = match words.word()? {
            "more" => self.accepted(MORE, frame, &mut words)?,
            "finished" => self.accepted(FINISHED, frame, &mut words)?,
            "refused" => refused(words.number()?, Carried::Amount(words.number()?), 0),
            _ => return None,
        };
        words.done()?;
        let buf = hex(&self.buf[..self.lent]);
        Some(Row { asked, told: format!("{} {} {buf}", line(numbers), self.state.told()) })
    }

    // The numbers of an accepted frame, whose part is put behind the bytes held as far as the answer says that they go.
    fn accepted(&mut self, outcome: u64, frame: &[u8], words: &mut Words) -> Option<[u64; 8]> {
        let [_, id, _, _, choice, part @ ..] = frame else { return None };
        let (held, due) = (words.number()?, words.number()?);
        let room = self.buf[..self.lent].get_mut(self.state.held..held)?;
        if room.len() != part.len() {
            return None;
        }
        room.copy_from_slice(part);
        let begun = self.state.begun;
        let (id, choice) = if begun { (self.state.id, self.state.choice) } else { (*id, *choice) };
        let finished = outcome == FINISHED;
        self.state = State { begun: true, finished, id, choice, due, held };
        Some(accepted(held as u64, &[outcome, u64::from(due)]))
    }

    // The lent part of the buffer as a line has it: by its length where it is AA throughout.
    fn lent(&self) -> String {
        let lent = &self.buf[..self.lent];
        if lent.iter().all(|byte| *byte == 0xAA) {
            return format!("@{}", lent.len());
        }
        hex(lent)
    }
}

impl State {
    // The eight numbers; the last two say nothing.
    fn numbers(&self) -> [u64; 8] {
        let [begun, finished] = [self.begun, self.finished].map(u64::from);
        let [id, choice, due] = [self.id, self.choice, self.due].map(u64::from);
        [begun, finished, id, choice, due, self.held as u64, 0, 0]
    }

    // The numbers with commas between them, as an answer has them.
    fn told(&self) -> String {
        self.numbers().map(|number| number.to_string()).join(",")
    }

    // The same as a request has them: `#` where all are 0.
    fn lent(&self) -> String {
        if self.numbers() == [0; 8] {
            return "#".to_string();
        }
        self.told()
    }
}
