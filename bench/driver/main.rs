// The port's archive and the original Rust on the same inputs: their answers compared, or one call repeated so that its instructions can be counted.
mod answer;
#[path = "../../bindings/rust/src/declared.rs"]
mod archive;
mod buffers;
mod compare;
#[path = "../../oracle/asking/error_frames.rs"]
#[allow(dead_code)]
mod error_frames;
#[path = "../../oracle/asking/errors.rs"]
#[allow(dead_code)]
mod errors;
#[path = "../../oracle/asking/headers.rs"]
#[allow(dead_code)]
mod headers;
mod inputs;
mod original;
mod pdu;
mod port;
#[path = "../../oracle/asking/reading.rs"]
#[allow(dead_code)]
mod reading;
mod repeat;
mod spoken;
mod told;
#[path = "../../oracle/asking/values.rs"]
#[allow(dead_code)]
mod values;

use inputs::{Beside, Input};
use std::process::ExitCode;

fn main() -> ExitCode {
    let words: Vec<String> = std::env::args().skip(1).collect();
    let words: Vec<&str> = words.iter().map(String::as_str).collect();
    match words[..] {
        ["compare"] => return compare::compare(),
        ["list"] => inputs::all().iter().for_each(list),
        [side, operation, name, count] => calls(side, operation, name, number(count)),
        _ => panic!("driver compare, list, or SIDE OPERATION INPUT COUNT"),
    }
    ExitCode::SUCCESS
}

// An input's operation and name, and the sides that can be measured on it.
fn list(input: &Input) {
    let measured = matches!(input.beside, Beside::Same | Beside::Marker);
    println!("{} {} {}", input.operation, input.name, if measured { "both" } else { "port" });
}

// So many calls, one at the least.
fn number(count: &str) -> u64 {
    count.parse().ok().filter(|count| *count > 0).expect("a count above 0")
}

// So many calls of one side on one input.
fn calls(side: &str, operation: &str, name: &str, count: u64) {
    let inputs = inputs::all();
    let input = inputs.iter().find(|input| input.operation == operation && input.name == name);
    let request = input.expect("an input of the list").request();
    match side {
        "port" => port::ask(&request, count),
        "original" => original::ask(&request, count),
        _ => panic!("the side is port or original"),
    };
}
