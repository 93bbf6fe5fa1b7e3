// Makes requests, asks the Rust, the reference and the port, and judges their answers; or prints the requests alone.
mod batch;
mod judging;
mod making;
mod report;

use batch::Programs;
use report::Report;
use std::process::ExitCode;

// Requests that are asked of each program in one run of it.
const BATCH: usize = 50_000;

fn main() -> ExitCode {
    let words: Vec<String> = std::env::args().skip(1).collect();
    let numbers: Vec<u64> = words.iter().take(2).flat_map(|word| word.parse()).collect();
    match (&numbers[..], &words[numbers.len()..]) {
        ([seed, count], []) => {
            making::make(*seed, *count, |line| println!("{line}"));
            ExitCode::SUCCESS
        }
        ([seed, count], [folder, rust, reference, port]) => {
            compare(*seed, *count, &Programs { folder, rust, reference, port })
        }
        _ => {
            eprintln!("usage: comparer SEED COUNT [FOLDER RUST REFERENCE PORT]");
            ExitCode::from(2)
        }
    }
}

fn compare(seed: u64, count: u64, programs: &Programs) -> ExitCode {
    let mut report = Report::default();
    match run(seed, count, programs, &mut report) {
        Ok(()) => report.print(seed),
        Err(error) => {
            eprintln!("oracle: {error}");
            ExitCode::from(2)
        }
    }
}

fn run(seed: u64, count: u64, programs: &Programs, report: &mut Report) -> std::io::Result<()> {
    let mut lines = Vec::with_capacity(BATCH);
    let mut outcome = Ok(());
    making::make(seed, count, |line| {
        lines.push(line);
        if lines.len() == BATCH && outcome.is_ok() {
            outcome = programs.ask(&lines, report);
            lines.clear();
        }
    });
    outcome?;
    if lines.is_empty() {
        Ok(())
    } else {
        programs.ask(&lines, report)
    }
}
