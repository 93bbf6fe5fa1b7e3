// What is not as K14 says: how often, and the smallest case.

// How much of each line is told.
const WIDTH: usize = 400;

#[derive(Default)]
pub struct Differences {
    pub count: u64,
    smallest: Option<(usize, String)>,
}

impl Differences {
    // One more; the smallest is the one whose first line is the shortest, and of these the first in the order of texts.
    pub fn add(&mut self, text: String) {
        self.count += 1;
        let case = (text.lines().next().map_or(0, str::len), text);
        if self.smallest.as_ref().map_or(true, |smallest| case < *smallest) {
            self.smallest = Some(case);
        }
    }

    // An answer that is not the expected one.
    pub fn answer(&mut self, request: &str, expected: &str, who: &str, answer: &str) {
        self.add(format!("asked: {request}\n02 asks for: {expected}\n{who}: {answer}"));
    }

    // The smallest case in words, if there is any.
    pub fn smallest(&self) -> Option<String> {
        let cut = |line: &str| line.chars().take(WIDTH).chain(['\n']).collect::<String>();
        self.smallest.as_ref().map(|(_, text)| text.lines().map(cut).collect())
    }
}
