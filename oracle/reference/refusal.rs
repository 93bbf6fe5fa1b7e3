// Refusals by document 01's numbers, with what each carries.
use protocol::Tag;
use std::fmt;

#[derive(Debug, Clone, Copy, PartialEq, Eq)]
pub enum Refusal {
    Number(u8, u64),
    // 4, 5, 6 and 8 carry the tag found.
    Tag(u8, Tag),
}

impl fmt::Display for Refusal {
    fn fmt(&self, out: &mut fmt::Formatter) -> fmt::Result {
        match self {
            Refusal::Number(number, carried) => write!(out, "refused {number} {carried}"),
            Refusal::Tag(number, tag) => write!(out, "refused {number} {tag}"),
        }
    }
}

pub fn refuse<T>(number: u8, carried: usize) -> Result<T, Refusal> {
    Err(Refusal::Number(number, carried as u64))
}
