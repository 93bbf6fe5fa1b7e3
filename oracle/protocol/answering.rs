// One answer for each line of standard input.
use crate::{parse, Request};
use std::io::{self, BufRead, Write};

// The most characters of a line.
pub const LONGEST_LINE: usize = 140_000;

pub fn answer_all(answer: impl Fn(&Request) -> String) -> io::Result<()> {
    let mut input = io::BufReader::with_capacity(1 << 20, io::stdin().lock());
    let mut output = io::BufWriter::with_capacity(1 << 20, io::stdout().lock());
    let mut line = Vec::new();
    while input.read_until(b'\n', &mut line)? > 0 {
        if line.last() == Some(&b'\n') {
            line.pop();
        }
        let short = (line.len() <= LONGEST_LINE).then_some(&line[..]);
        let request = short.and_then(|line| std::str::from_utf8(line).ok()).and_then(parse);
        match request {
            Some(request) => writeln!(output, "{}", answer(&request))?,
            None => writeln!(output, "unknown")?,
        }
        line.clear();
    }
    output.flush()
}
