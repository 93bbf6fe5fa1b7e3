//! Complex answers in segments, taken frame by frame into a lent buffer.
use crate::answer::{accepted, part, Numbers, Refusal};
use crate::calls;
use crate::service_choice::ConfirmedServiceChoice;

/// The places of a state's numbers.
const BEGUN: usize = 0;
const FINISHED: usize = 1;
const ID: usize = 2;
const CHOICE: usize = 3;
const DUE: usize = 4;
const HELD: usize = 5;

/// The place of the number that tells whether more frames follow.
const OUTCOME: usize = 2;

/// How far an answer in segments has been taken, by default no frame of it; its bytes are held in a buffer of the caller's.
#[derive(Debug, Clone, PartialEq, Eq, Default)]
pub struct Segments {
    state: Numbers,
}

/// What a frame that was accepted says.
#[derive(Debug, Clone, Copy, PartialEq, Eq)]
pub enum Taken {
    /// More frames follow.
    More,
    /// It was the last: the parts joined are the whole answer.
    Finished,
}

impl Segments {
    /// Takes one whole frame, from its control byte on: its part goes into the buffer behind the bytes held; a refused one changes neither these segments nor the buffer.
    #[inline]
    pub fn take(&mut self, frame: &[u8], buf: &mut [u8]) -> Result<Taken, Refusal> {
        let mut state = self.state;
        let told = calls::take_segment(&mut state, frame, buf);
        self.go_on(&told, state)
    }

    /// Goes on in the state that a call left, where its answer is accepted and both have a meaning here.
    #[inline]
    pub(crate) fn go_on(&mut self, told: &Numbers, state: Numbers) -> Result<Taken, Refusal> {
        accepted(told)?;
        let after = Segments { state };
        let taken = after.taken(told[OUTCOME]).ok_or(Refusal::UNNAMED)?;
        *self = after;
        Ok(taken)
    }

    /// The bytes held: so many of the buffer are the parts joined, and the next part goes behind them.
    #[inline]
    pub fn held(&self) -> usize {
        self.state[HELD] as usize
    }

    /// The sequence number that the next frame is to have; after 255 comes 0.
    #[inline]
    pub fn due(&self) -> u8 {
        self.state[DUE] as u8
    }

    /// Whether the last frame was accepted.
    #[inline]
    pub fn is_finished(&self) -> bool {
        self.state[FINISHED] == 1
    }

    /// The invoke id of the frames; none before the first.
    #[inline]
    pub fn invoke_id(&self) -> Option<u8> {
        self.of_the_first(ID)
    }

    /// The service that answers; none before the first frame.
    #[inline]
    pub fn service_choice(&self) -> Option<ConfirmedServiceChoice> {
        ConfirmedServiceChoice::try_from(self.of_the_first(CHOICE)?).ok()
    }

    /// The parts joined so far: the first bytes of the buffer, as many as are held, where the caller left them as they were; none where the buffer has fewer.
    #[inline]
    pub fn joined<'a>(&self, buf: &'a [u8]) -> Option<&'a [u8]> {
        part(buf, 0, self.state[HELD])
    }

    /// A byte that the first frame set; none before it.
    #[inline]
    fn of_the_first(&self, place: usize) -> Option<u8> {
        match self.state[BEGUN] {
            1 => u8::try_from(self.state[place]).ok(),
            _ => None,
        }
    }

    /// What an outcome tells, where the state of the same call says so too and each of its numbers has a meaning.
    #[inline]
    fn taken(&self, outcome: u64) -> Option<Taken> {
        self.invoke_id()?;
        self.service_choice()?;
        u8::try_from(self.state[DUE]).ok()?;
        match (outcome, self.state[FINISHED]) {
            (1, 0) => Some(Taken::More),
            (2, 1) => Some(Taken::Finished),
            _ => None,
        }
    }
}
