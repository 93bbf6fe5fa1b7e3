// The same at the far end of long buffers, and what comes before 13.
use crate::forms::forms;
use crate::run::Run;
use crate::said::{Integer, Said, Under};
use crate::words::{answer, request, FILL};
use protocol::Write;
use reference::refusal::Refusal;

// The bytes of the longest buffer, by 01 and not by the second reading, which is held to it.
const LONGEST: usize = 65_535;

// One integer under each kind of tag.
const SAID: [Said; 4] = [
    Said { under: Under::Application(2), integer: Integer::Unsigned(7) },
    Said { under: Under::Application(9), integer: Integer::Unsigned(u64::MAX) },
    Said { under: Under::Application(3), integer: Integer::Signed(i64::MIN) },
    Said { under: Under::Context(255), integer: Integer::Signed(-129) },
];

// Holds the second reading to these: exact room and one byte less before the end of the longest buffer, 1 for a buffer of one byte more at any place, and 2 for a place past the end of a short buffer.
pub fn hold(run: &mut Run) {
    for said in SAID {
        let shortest = &forms(said)[0];
        for what in &said.writes() {
            let exact = LONGEST - shortest.len();
            let filled = [&vec![FILL; exact], &shortest[..]].concat();
            let whole = vec![FILL; LONGEST];
            let no_room = Refusal::Number(13, shortest.len() as u64);
            hold_one(what, exact, &answer(Ok(LONGEST), &filled), LONGEST, run);
            hold_one(what, exact + 1, &answer(Err(no_room), &whole), LONGEST, run);
            for place in [0, LONGEST + 2] {
                let too_long = Refusal::Number(1, LONGEST as u64 + 1);
                let longer = vec![FILL; LONGEST + 1];
                hold_one(what, place, &answer(Err(too_long), &longer), LONGEST + 1, run);
            }
            for capacity in 0..=shortest.len() {
                let past = Refusal::Number(2, capacity as u64 + 1);
                let buffer = vec![FILL; capacity];
                hold_one(what, capacity + 1, &answer(Err(past), &buffer), capacity, run);
            }
        }
    }
}

// Holds the second reading to one answer, and keeps it for the port.
fn hold_one(what: &Write, place: usize, expected: &str, capacity: usize, run: &mut Run) {
    let request = request(what, place, capacity);
    let answered = protocol::parse(&request).map(|request| reference::answer(&request));
    let answered = answered.unwrap_or("unknown".to_string());
    if answered != expected {
        run.second_reading(&request, expected, &answered);
    }
    run.asked.push((request, expected.to_string()));
}
