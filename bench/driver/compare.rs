// Both sides asked once on every input, and their answers compared.
use crate::answer::Answer;
use crate::inputs::{all, Beside, Input};
use crate::spoken::spoken;
use crate::{original, port};
use std::panic::{catch_unwind, set_hook, AssertUnwindSafe};
use std::process::ExitCode;

// Compares every input; fails where one differs.
pub fn compare() -> ExitCode {
    set_hook(Box::new(|_| {}));
    let inputs = all();
    let differing = inputs.iter().filter(|input| !agrees(input)).count();
    println!("{} inputs compared, {differing} differ", inputs.len());
    ExitCode::from(u8::from(differing > 0))
}

// Whether both sides answer an input as it is said that they do; where the original cannot, 01 read a second time is asked.
fn agrees(input: &Input) -> bool {
    let request = input.request();
    let ours = port::ask(&request, 1);
    let theirs = match input.beside {
        Beside::Alone => None,
        _ => catch_unwind(AssertUnwindSafe(|| original::ask(&request, 1))).ok(),
    };
    let agreed = match (&theirs, input.beside) {
        (Some(theirs), Beside::Same) => theirs.told_by(&ours),
        (Some(theirs), Beside::Marker) => marked(theirs, &ours),
        (None, Beside::Panics | Beside::Alone) => {
            spoken(&request, &ours) == reference::answer(&request)
        }
        _ => false,
    };
    if !agreed {
        println!("{} {}: the port {ours}", input.operation, input.name);
        println!(
            "    the original {}",
            theirs.map_or("gave none".to_string(), |theirs| theirs.to_string())
        );
    }
    agreed
}

// Row (a): behind the first byte the original has the length's low byte, which is the last of it, where the port has a marker.
fn marked(theirs: &Answer, ours: &Answer) -> bool {
    let marker = ours.buffer[1];
    let last = match marker {
        254 => 3,
        255 => 5,
        _ => return false,
    };
    let mut mended = theirs.clone();
    mended.buffer[1] = marker;
    theirs.buffer[1] == ours.buffer[last] && mended.told_by(ours)
}
