// Every string of one to three bytes, read whole, and the shortest for each integer under its tag.
use crate::readings::readings;
use crate::said::Said;

// A string that reads, behind what it says; in this order the shortest of each integer comes first.
#[derive(Debug, Clone, Copy, PartialEq, Eq, PartialOrd, Ord)]
struct Row {
    said: Said,
    length: u8,
    bytes: [u8; 3],
}

impl Row {
    // The string itself.
    fn string(&self) -> &[u8] {
        &self.bytes[..usize::from(self.length)]
    }
}

// The rows in their order, and how many strings were read.
pub struct Listed {
    rows: Vec<Row>,
    pub strings: u64,
}

impl Listed {
    // Reads all strings of one, two and three bytes; none is left out.
    pub fn all() -> Self {
        let mut listed = Listed { rows: Vec::new(), strings: 0 };
        for length in 1..=3 {
            for number in 0..1u32 << (8 * length) {
                let [_, bytes @ ..] = (number << (8 * (3 - length))).to_be_bytes();
                listed.add(length as u8, bytes);
            }
        }
        listed.rows.sort_unstable();
        listed
    }

    // A string, as often as it reads.
    fn add(&mut self, length: u8, bytes: [u8; 3]) {
        self.strings += 1;
        for said in readings(&bytes[..usize::from(length)]).into_iter().flatten() {
            self.rows.push(Row { said, length, bytes });
        }
    }

    // For each integer under its tag the shortest string, and another one if it is as short.
    pub fn shortest(&self) -> impl Iterator<Item = (Said, &[u8], Option<&[u8]>)> {
        self.rows.chunk_by(|one, next| one.said == next.said).map(|rows| {
            let other = rows.get(1).filter(|other| other.length == rows[0].length);
            (rows[0].said, rows[0].string(), other.map(Row::string))
        })
    }

    // The strings of up to three bytes that say this, the shortest first, those of one length in the order of their bytes.
    pub fn found(&self, said: Said) -> impl Iterator<Item = &[u8]> {
        let first = self.rows.partition_point(|row| row.said < said);
        self.rows[first..].iter().take_while(move |row| row.said == said).map(Row::string)
    }
}
