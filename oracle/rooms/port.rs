// The port, asked the writes that were kept for it, in one run of its program.
use crate::run::Run;
use std::fs::{self, File};
use std::io::{self, Error};
use std::process::Command;

// Asks all lines at once, by files in a folder, and holds each answer to the expected one.
pub fn ask(folder: &str, command: &str, run: &mut Run) -> io::Result<()> {
    let (requests, answers) = (format!("{folder}/requests.txt"), format!("{folder}/answers.txt"));
    let lines: String = run.asked.iter().map(|(request, _)| format!("{request}\n")).collect();
    fs::write(&requests, lines)?;
    let program = Command::new("sh")
        .args(["-c", command])
        .stdin(File::open(&requests)?)
        .stdout(File::create(&answers)?)
        .status()?;
    if !program.success() {
        return Err(Error::other("the port's program failed"));
    }
    let answers = String::from_utf8(fs::read(&answers)?).map_err(Error::other)?;
    let (asked, answered) = (run.asked.len(), answers.lines().count());
    if asked != answered {
        return Err(Error::other(format!("{answered} answers of the port to {asked} requests")));
    }
    for ((request, expected), answer) in run.asked.iter().zip(answers.lines()) {
        if expected != answer {
            run.differences.answer(request, expected, "the port", answer);
        }
    }
    Ok(())
}
