// K14 of 02 on real bytes: an integer is written exactly if some string that fits in the room reads as its tag and its value; what is written is the shortest such string, and no other is as short.
//   rooms                 the writers of 01's second reading
//   rooms FOLDER PORT     the port too, asked by files in FOLDER
mod differences;
mod edges;
mod far;
mod forms;
mod holding;
mod listed;
mod port;
mod readings;
mod rooms;
mod run;
mod said;
mod words;

use listed::Listed;
use run::Run;
use std::process::ExitCode;

// Holds the second reading, then the port if there is one, and tells the outcome.
fn main() -> ExitCode {
    let words: Vec<String> = std::env::args().skip(1).collect();
    let mut run = Run::default();
    match &words[..] {
        [] => {
            hold(&mut run);
            run.asked.clear();
        }
        [folder, command] => {
            hold(&mut run);
            if let Err(error) = port::ask(folder, command, &mut run) {
                eprintln!("no room: {error}");
                return ExitCode::from(2);
            }
        }
        _ => {
            eprintln!("usage: rooms [FOLDER PORT]");
            return ExitCode::from(2);
        }
    }
    run.tell()
}

// Holds the second reading to K14, and keeps what the port is to be asked.
fn hold(run: &mut Run) {
    let listed = Listed::all();
    holding::hold_listed(&listed, run);
    holding::hold_edges(&listed, run);
    far::hold(run);
}
