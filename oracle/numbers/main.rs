// Turns requests and answers in words into requests and answers in numbers, as the program replay reads and prints them.
//   numbers list FOLDER              the stored list, from its sources in FOLDER
//   numbers turn REQUESTS ANSWERS    any requests in words with their answers, without those that are answered `unknown`
// A line of each request and a line of its answer are printed, one after the other; a script has two lines for each frame. The answers are those that were given: nothing is asked of any program.
mod asked;
mod numbers;
mod segments;
mod stored;
mod told;
mod told_value;

use protocol::{Request, LONGEST_LINE};
use std::io::{self, Write};
use std::process::ExitCode;

// A request and its answer, both in numbers.
struct Row {
    asked: String,
    told: String,
}

fn main() -> ExitCode {
    let words: Vec<String> = std::env::args().skip(1).collect();
    let words: Vec<&str> = words.iter().map(String::as_str).collect();
    let rows = match words[..] {
        ["list", folder] => stored::list(folder),
        ["turn", requests, answers] => turned_files(requests, answers),
        _ => Err("usage: numbers list FOLDER | numbers turn REQUESTS ANSWERS".to_string()),
    };
    match rows.and_then(|rows| print(&rows).map_err(|error| error.to_string())) {
        Ok(()) => ExitCode::SUCCESS,
        Err(error) => {
            eprintln!("numbers: {error}");
            ExitCode::from(2)
        }
    }
}

fn print(rows: &[Row]) -> io::Result<()> {
    let mut out = io::BufWriter::new(io::stdout().lock());
    for row in rows {
        writeln!(out, "{}\n{}", row.asked, row.told)?;
    }
    out.flush()
}

// A request in words and its answer in words, in numbers; an error where one of them cannot be read.
fn turned(request: &str, answer: &str) -> Result<Vec<Row>, String> {
    let read = protocol::parse(request).ok_or_else(|| format!("no request: {request}"))?;
    let rows = match &read {
        Request::Segments { capacity, calls } => segments::rows(*capacity, calls, answer),
        _ => one_row(&read, answer).map(|row| vec![row]),
    };
    rows.ok_or_else(|| format!("no answer: {request}: {answer}"))
}

// The row of a request that is no script.
fn one_row(request: &Request, answer: &str) -> Option<Row> {
    Some(Row { asked: asked::asked(request, answer)?, told: told::told(request, answer)? })
}

// The rows of two files, without those that a script makes too long for a line: a long frame beside a long buffer.
fn turned_files(requests: &str, answers: &str) -> Result<Vec<Row>, String> {
    let mut rows = Vec::new();
    for (request, answer) in stored::pairs(requests, answers)? {
        if answer != "unknown" {
            rows.extend(turned(&request, &answer)?);
        }
    }
    rows.retain(|row| row.asked.len() <= LONGEST_LINE);
    Ok(rows)
}
