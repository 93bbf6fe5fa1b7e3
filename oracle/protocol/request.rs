// What can be asked.
use std::fmt;

#[derive(Debug, Clone, Copy, PartialEq, Eq)]
pub enum Class {
    Application,
    Context,
    Opening,
    Closing,
}

#[derive(Debug, Clone, Copy, PartialEq, Eq)]
pub struct TagName {
    pub class: Class,
    pub number: u8,
}

#[derive(Debug, Clone, Copy, PartialEq, Eq)]
pub struct Tag {
    pub name: TagName,
    pub value: u32,
}

// A tag as the answers print it: class, number, value.
impl fmt::Display for Tag {
    fn fmt(&self, out: &mut fmt::Formatter) -> fmt::Result {
        let class = match self.name.class {
            Class::Application => 'A',
            Class::Context => 'C',
            Class::Opening => 'O',
            Class::Closing => 'X',
        };
        write!(out, "{class} {} {}", self.name.number, self.value)
    }
}

#[derive(Debug, Clone, PartialEq, Eq)]
pub enum Read {
    Byte,
    Bytes(usize),
    Slice(u32),
    Unsigned(u32),
    Signed(u32),
    Tag,
    Expect(TagName),
    ExpectNumber(TagName),
    ExpectValue(u32),
    Body { allowance: u64 },
    BodyFor { number: u8, allowance: u64 },
    OptionalBody { number: u8, allowance: u64 },
    Walk,
    Value,
    Utf8,
    Part(u32),
    Header,
}

// A value to write; floats are their bits.
#[derive(Debug, Clone, PartialEq, Eq)]
pub enum Value {
    Boolean(bool),
    Real(u32),
    Double(u64),
    Date { year: u16, rest: [u8; 3] },
    Time([u8; 4]),
    ObjectId { kind: u16, instance: u32 },
    Text(Vec<u8>),
    Octets(Vec<u8>),
    Bits(u8, Vec<u8>),
    Enumerated(u32),
    Unsigned(u64),
    Signed(i64),
}

#[derive(Debug, Clone, Copy, PartialEq, Eq)]
pub enum Header {
    Request { segments: u8, size: u8, id: u8, choice: u8 },
    Simple { id: u8, choice: u8 },
    Complex { id: u8, choice: u8 },
    Segment { id: u8, sequence: u8, window: u8 },
    Error { id: u8, choice: u8, class: u32, code: u32 },
    Reject { id: u8, reason: u8 },
    Abort { server: bool, id: u8, reason: u8 },
}

// A header as the answers print it: kind and fields.
impl fmt::Display for Header {
    fn fmt(&self, out: &mut fmt::Formatter) -> fmt::Result {
        match self {
            Header::Request { segments, size, id, choice } => {
                write!(out, "request {segments} {size} {id} {choice}")
            }
            Header::Simple { id, choice } => write!(out, "simple {id} {choice}"),
            Header::Complex { id, choice } => write!(out, "complex {id} {choice}"),
            Header::Segment { id, sequence, window } => {
                write!(out, "segment {id} {sequence} {window}")
            }
            Header::Error { id, choice, class, code } => {
                write!(out, "error {id} {choice} {class} {code}")
            }
            Header::Reject { id, reason } => write!(out, "reject {id} {reason}"),
            Header::Abort { server, id, reason } => {
                write!(out, "abort {} {id} {reason}", u8::from(*server))
            }
        }
    }
}

#[derive(Debug, Clone, PartialEq, Eq)]
pub enum Write {
    Push(u8),
    Extend(Vec<u8>),
    Tag(Tag),
    Opening(u8),
    Closing(u8),
    Bool(u8, bool),
    Unsigned(Option<u8>, u64),
    Signed(Option<u8>, i64),
    Enumerated(Option<u8>, u64),
    Value(Value),
    Header(Header),
}

// A call of a script of segments: a frame taken, or so many bytes of the buffer lent from now on.
#[derive(Debug, Clone, PartialEq, Eq)]
pub enum SegmentsCall {
    Take(Vec<u8>),
    Lend(usize),
}

#[derive(Debug, Clone, PartialEq, Eq)]
pub enum Request {
    Read { what: Read, place: usize, buf: Vec<u8> },
    Write { what: Write, place: usize, capacity: usize },
    Segments { capacity: usize, calls: Vec<SegmentsCall> },
}
