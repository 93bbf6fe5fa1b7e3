// What was held, what the port is to be asked, and every difference.
use crate::differences::Differences;
use crate::said::Said;
use crate::words::hex;
use std::process::ExitCode;

// The counts, and the requests for the port with the answers expected.
#[derive(Default)]
pub struct Run {
    pub strings: u64,
    pub integers: u64,
    pub asked: Vec<(String, String)>,
    pub differences: Differences,
}

impl Run {
    // Another string is as short as the shortest.
    pub fn as_short(&mut self, said: Said, one: &[u8], other: &[u8]) {
        self.differences.add(format!("{} and {}: as short, both say {said}", hex(one), hex(other)));
    }

    // An answer of the second reading that is not the expected one.
    pub fn second_reading(&mut self, request: &str, expected: &str, answer: &str) {
        self.differences.answer(request, expected, "the second reading", answer);
    }

    // Prints the smallest difference, if there is one, and the counts; any difference is a failure.
    pub fn tell(&self) -> ExitCode {
        let (strings, integers, asked) = (self.strings, self.integers, self.asked.len());
        let integers = format!("{integers} integers under their tags");
        let counts =
            format!("{strings} strings read, {integers}, {asked} writes asked of the port");
        match self.differences.smallest() {
            None => {
                println!("no room: {counts}, no difference");
                ExitCode::SUCCESS
            }
            Some(smallest) => {
                println!("{smallest}no room: {counts}, differences: {}", self.differences.count);
                ExitCode::FAILURE
            }
        }
    }
}
