// Counts verdicts by request and by row, and keeps what is unexplained.
use crate::judging::{judge, Verdict};
use std::collections::BTreeMap;
use std::process::ExitCode;

// How many unexplained differences are printed, and how much of each line.
const PRINTED: usize = 100;
const WIDTH: usize = 400;

#[derive(Default)]
pub struct Report {
    total: u64,
    by_request: BTreeMap<String, [u64; 4]>,
    rows: BTreeMap<String, u64>,
    kept: BTreeMap<&'static str, u64>,
    outside: BTreeMap<&'static str, u64>,
    unexplained: Vec<String>,
}

impl Report {
    pub fn add(&mut self, line: &str, rust: &str, port: &str, reference: &str) {
        let verdict = match protocol::parse(line) {
            Some(request) => judge(&request, rust, port, reference),
            None if port == "unknown" => Verdict::Outside("no request: answered unknown"),
            None => Verdict::Unexplained("01 asks for: unknown".to_string()),
        };
        let column = match verdict {
            Verdict::Equal => 0,
            Verdict::Kept(row) => {
                *self.kept.entry(row).or_default() += 1;
                0
            }
            Verdict::Row(rows) => {
                *self.rows.entry(rows).or_default() += 1;
                1
            }
            Verdict::Outside(why) => {
                *self.outside.entry(why).or_default() += 1;
                2
            }
            Verdict::Unexplained(why) => {
                let text = format!("{line}\n    the Rust: {rust}\n    the port: {port}\n    {why}");
                self.unexplained.push(text);
                3
            }
        };
        self.total += 1;
        let known = protocol::parse(line).is_some();
        let name = if known { line.split(' ').next().unwrap_or("") } else { "(no request)" };
        self.by_request.entry(name.to_string()).or_default()[column] += 1;
    }

    // Prints the counts and the unexplained, smallest first; any of these is a failure.
    pub fn print(mut self, seed: u64) -> ExitCode {
        println!("request        equal   by a row  port alone  unexplained");
        let mut sums = [0; 4];
        for (name, counts) in &self.by_request {
            print_counts(name, counts);
            counts.iter().zip(&mut sums).for_each(|(count, sum)| *sum += count);
        }
        print_counts("all", &sums);
        print_table("Different, as a row of 01 says", &self.rows);
        print_table("Equal, and kept from the Rust", &self.kept);
        print_table("Port alone, as 01 asks", &self.outside);
        self.unexplained.sort_by_key(|text| (text.find('\n'), text.clone()));
        for text in self.unexplained.iter().take(PRINTED) {
            println!("\nunexplained:");
            text.lines().for_each(|line| println!("{}", &line[..line.len().min(WIDTH)]));
        }
        let number = self.unexplained.len();
        println!("\nseed {seed}: {} requests compared, {number} unexplained", self.total);
        if number == 0 {
            ExitCode::SUCCESS
        } else {
            ExitCode::FAILURE
        }
    }
}

fn print_counts(name: &str, [equal, rows, outside, unexplained]: &[u64; 4]) {
    println!("{name:<12} {equal:>8} {rows:>10} {outside:>11} {unexplained:>12}");
}

fn print_table<K: std::fmt::Display>(title: &str, counts: &BTreeMap<K, u64>) {
    println!("\n{title}:");
    for (name, count) in counts {
        println!("{count:>10}  {name}");
    }
}
