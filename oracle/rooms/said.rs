// What a string can say: an integer under a tag that an integer writer takes.
use protocol::Write;
use std::fmt;

// Class and number of a tag.
#[derive(Debug, Clone, Copy, PartialEq, Eq, PartialOrd, Ord)]
pub enum Under {
    Application(u8),
    Context(u8),
}

#[derive(Debug, Clone, Copy, PartialEq, Eq, PartialOrd, Ord)]
pub enum Integer {
    Unsigned(u64),
    Signed(i64),
}

#[derive(Debug, Clone, Copy, PartialEq, Eq, PartialOrd, Ord)]
pub struct Said {
    pub under: Under,
    pub integer: Integer,
}

impl Said {
    // The writes of this integer under this tag: the unsigned writer takes application 2 or 9 or any context number, the signed one application 3 or any context number.
    pub fn writes(self) -> Vec<Write> {
        match (self.under, self.integer) {
            (Under::Application(2), Integer::Unsigned(value)) => vec![Write::Unsigned(None, value)],
            (Under::Application(9), Integer::Unsigned(value)) => {
                vec![Write::Enumerated(None, value)]
            }
            (Under::Application(3), Integer::Signed(value)) => vec![Write::Signed(None, value)],
            (Under::Application(_), _) => vec![],
            (Under::Context(number), Integer::Unsigned(value)) => {
                vec![Write::Unsigned(Some(number), value), Write::Enumerated(Some(number), value)]
            }
            (Under::Context(number), Integer::Signed(value)) => {
                vec![Write::Signed(Some(number), value)]
            }
        }
    }
}

// As a difference is told: the integer, then its tag.
impl fmt::Display for Said {
    fn fmt(&self, out: &mut fmt::Formatter) -> fmt::Result {
        match self.integer {
            Integer::Unsigned(value) => write!(out, "unsigned {value}")?,
            Integer::Signed(value) => write!(out, "signed {value}")?,
        }
        match self.under {
            Under::Application(number) => write!(out, " under application {number}"),
            Under::Context(number) => write!(out, " under context {number}"),
        }
    }
}
