// K9: complex answers in segments, whose parts are joined in a lent buffer, and scripts of such calls.
use crate::headers::LAST_CHOICE;
use crate::reading::LONGEST;
use crate::refusal::{refuse, Refusal};
use protocol::{put_hex, SegmentsCall};

const LAST_WINDOW: u8 = 127;

// What the frames accepted so far have told; the first one's id and choice, none before it.
#[derive(Debug, Clone, Copy, Default, PartialEq, Eq)]
pub struct State {
    first: Option<(u8, u8)>,
    finished: bool,
    due: u8,
    held: usize,
}

// A frame's header, and its service bytes.
struct Segment<'a> {
    more_follow: bool,
    id: u8,
    sequence: u8,
    choice: u8,
    part: &'a [u8],
}

// The state after a frame, whose part then stands behind the bytes held: 27, then 1 for the buffer and for the frame, then as the frame tells, then 13.
pub fn take(state: State, frame: &[u8], lent: &mut [u8]) -> Result<State, Refusal> {
    if state.finished {
        return refuse(27, 0);
    }
    for length in [lent.len(), frame.len()] {
        if length > LONGEST {
            return refuse(1, length);
        }
    }
    let segment = segment(frame)?;
    follows(state, &segment)?;
    let held = state.held + segment.part.len();
    match lent.get_mut(state.held..held) {
        Some(room) => room.copy_from_slice(segment.part),
        None => return refuse(13, segment.part.len()),
    }
    Ok(State {
        first: Some((segment.id, segment.choice)),
        finished: !segment.more_follow,
        due: if segment.sequence == 255 { 0 } else { segment.sequence + 1 },
        held,
    })
}

// A frame as it is: 3 where its header is not whole, then 17, 11 and 24, whichever byte comes first.
fn segment(frame: &[u8]) -> Result<Segment<'_>, Refusal> {
    let [control, id, sequence, window, choice, part @ ..] = frame else {
        return refuse(3, frame.len());
    };
    let (kind, segmented) = (control / 16, control / 8 % 2 == 1);
    if kind != 3 || !segmented {
        return refuse(17, usize::from(*control));
    }
    if *choice > LAST_CHOICE {
        return refuse(11, usize::from(*choice));
    }
    if *window == 0 || *window > LAST_WINDOW {
        return refuse(24, 0);
    }
    let more_follow = control / 4 % 2 == 1;
    Ok(Segment { more_follow, id: *id, sequence: *sequence, choice: *choice, part })
}

// Whether a frame is the next one: 25 for another id or choice than the first's, then 26.
fn follows(state: State, segment: &Segment) -> Result<(), Refusal> {
    if matches!(state.first, Some(first) if first != (segment.id, segment.choice)) {
        return refuse(25, 0);
    }
    if segment.sequence != state.due {
        return refuse(26, 0);
    }
    Ok(())
}

// The answers of a script's calls, and last the whole buffer.
pub fn script(capacity: usize, calls: &[SegmentsCall]) -> String {
    let mut buf = vec![0xAA; capacity];
    let (mut state, mut lent) = (State::default(), capacity);
    let mut answer = String::new();
    for call in calls {
        match call {
            SegmentsCall::Take(frame) => answer += &taken(&mut state, frame, &mut buf[..lent]),
            SegmentsCall::Lend(length) => {
                lent = *length;
                answer += "ok";
            }
        }
        answer += " ; ";
    }
    put_hex(&buf, &mut answer);
    answer
}

// The answer of one frame; a refusal leaves the state as it was.
fn taken(state: &mut State, frame: &[u8], lent: &mut [u8]) -> String {
    match take(*state, frame, lent) {
        Ok(after) => {
            *state = after;
            let outcome = if after.finished { "finished" } else { "more" };
            format!("{outcome} {} {}", after.held, after.due)
        }
        Err(refusal) => refusal.to_string(),
    }
}
