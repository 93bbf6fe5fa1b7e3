// What a side answered: eight numbers as bindings/c/thaolisem.h lays them out, and the buffer that was written.

// The eight numbers as the archive puts them.
pub type Numbers = [u64; 8];

#[derive(Clone, PartialEq, Eq)]
pub struct Answer {
    // None where the original does not say a number.
    pub numbers: [Option<u64>; 8],
    pub buffer: Vec<u8>,
}

impl Answer {
    // A read that tells these numbers, or a write that does and leaves this buffer.
    pub fn new(numbers: [u64; 8], buffer: Vec<u8>) -> Self {
        Self { numbers: numbers.map(Some), buffer }
    }

    // Whether another answer tells all that this one tells.
    pub fn told_by(&self, other: &Answer) -> bool {
        let same = |(told, by): (&Option<u64>, &Option<u64>)| told.is_none() || told == by;
        self.numbers.iter().zip(&other.numbers).all(same) && self.buffer == other.buffer
    }
}

// The numbers in words, and the buffer's bytes where they are few.
impl std::fmt::Display for Answer {
    fn fmt(&self, out: &mut std::fmt::Formatter) -> std::fmt::Result {
        for number in self.numbers {
            match number {
                Some(number) => write!(out, "{number} ")?,
                None => write!(out, "- ")?,
            }
        }
        let shown = &self.buffer[..self.buffer.len().min(24)];
        shown.iter().try_for_each(|byte| write!(out, "{byte:02x}"))
    }
}
