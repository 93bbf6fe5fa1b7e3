// K14's sentence of the listed strings, and of the integers at the edges.
use crate::edges::edges;
use crate::forms::{faulty, forms};
use crate::listed::Listed;
use crate::readings::reads_as;
use crate::rooms;
use crate::run::Run;
use crate::said::{Integer, Said, Under};
use crate::words::hex;

// Of the listed integers the port is asked all whose shortest string has two bytes; of those of three bytes, in their order, each thirteenth under a tag of two bytes and each 251st under a tag of one.
const STEP_LONG_TAG: usize = 13;
const STEP_SHORT_TAG: usize = 251;
// Of the integers at the edges it is asked all under an application tag and under these context numbers.
const ASKED: [u8; 8] = [0, 1, 14, 15, 16, 253, 254, 255];

// Every integer that some string of up to three bytes says: its shortest string is alone, and is what is written; and none is left out between two of them.
pub fn hold_listed(listed: &Listed, run: &mut Run) {
    run.strings = listed.strings;
    let mut before = None;
    for (position, (said, shortest, other)) in listed.shortest().enumerate() {
        run.integers += 1;
        if let Some(other) = other {
            run.as_short(said, shortest, other);
        }
        if before.is_some_and(|before| leaves_out(before, said)) {
            run.differences.add(format!("{said}: listed, but not the integer below it"));
        }
        before = Some(said);
        let ask = match (shortest.len(), said.under) {
            (2, _) => true,
            (_, Under::Context(15..)) => position % STEP_LONG_TAG == 0,
            _ => position % STEP_SHORT_TAG == 0,
        };
        rooms::hold(said, shortest, ask, run);
    }
}

// Whether two integers under one tag, of which the second follows in the list, have another one between them.
fn leaves_out(before: Said, said: Said) -> bool {
    let between = match (before.integer, said.integer) {
        (Integer::Unsigned(one), Integer::Unsigned(next)) => one + 1 < next,
        (Integer::Signed(one), Integer::Signed(next)) => one + 1 < next,
        _ => false,
    };
    between && before.under == said.under
}

// Every integer at an edge: its shortest form is alone, and is what is written.
pub fn hold_edges(listed: &Listed, run: &mut Run) {
    for said in edges() {
        let forms = forms(said);
        hold_readings(said, &forms, run);
        let (shortest, next) = (&forms[0], &forms[1]);
        if next.len() == shortest.len() {
            run.as_short(said, shortest, next);
        }
        hold_list(listed, said, &forms, run);
        rooms::hold(said, shortest, is_asked(said), run);
    }
}

// Every form says the integer, and no faulty one does.
fn hold_readings(said: Said, forms: &[Vec<u8>], run: &mut Run) {
    for form in forms.iter().filter(|form| !reads_as(said, form)) {
        run.differences.add(format!("{}: does not say {said}", hex(form)));
    }
    for form in faulty(said, forms).iter().filter(|form| reads_as(said, form)) {
        run.differences.add(format!("{}: says {said}", hex(form)));
    }
}

// The list has just the forms of up to three bytes; where it has none, rooms of 0 to 3 must so be refused.
fn hold_list(listed: &Listed, said: Said, forms: &[Vec<u8>], run: &mut Run) {
    let listed: Vec<&[u8]> = listed.found(said).collect();
    let made: Vec<&[u8]> = forms.iter().map(Vec::as_slice).filter(|form| form.len() <= 3).collect();
    run.integers += u64::from(made.is_empty());
    for string in listed.iter().filter(|string| !made.contains(string)) {
        run.differences.add(format!("{}: no form, and says {said}", hex(string)));
    }
    for form in made.iter().filter(|form| !listed.contains(form)) {
        run.differences.add(format!("{}: not listed for {said}", hex(form)));
    }
}

// Whether the port is asked about this integer at an edge.
fn is_asked(said: Said) -> bool {
    match said.under {
        Under::Application(_) => true,
        Under::Context(number) => ASKED.contains(&number),
    }
}
