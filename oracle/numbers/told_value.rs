// Values and headers of an answer: the case or kind, and its fields.
use protocol::Words;

// The number of a case, and its fields.
pub fn value(words: &mut Words) -> Option<Vec<u64>> {
    let case = words.word()?;
    Some(match case {
        "Boolean" => vec![1, u64::from(words.bit()?)],
        "Real" => vec![2, u64::from(u32::from_be_bytes(words.bytes()?.try_into().ok()?))],
        "Double" => vec![3, u64::from_be_bytes(words.bytes()?.try_into().ok()?)],
        "Date" => numbered(4, 4, words)?,
        "Time" => numbered(5, 4, words)?,
        "ObjectId" => numbered(6, 2, words)?,
        "Text" => numbered(7, 2, words)?,
        "Octets" => numbered(8, 2, words)?,
        "Bits" => numbered(9, 3, words)?,
        "Enumerated" => numbered(10, 1, words)?,
        "Unsigned" => numbered(11, 1, words)?,
        "Signed" => vec![12, words.number::<i64>()? as u64],
        _ => return None,
    })
}

// The number of a kind, and its fields.
pub fn header(words: &mut Words) -> Option<Vec<u64>> {
    match words.word()? {
        "request" => numbered(0, 4, words),
        "simple" => numbered(2, 2, words),
        "complex" => numbered(3, 2, words),
        "segment" => numbered(4, 3, words),
        "error" => numbered(5, 4, words),
        "reject" => numbered(6, 2, words),
        "abort" => Some(vec![7, u64::from(words.bit()?), words.number()?, words.number()?]),
        _ => None,
    }
}

// A number, and so many fields that stand as they are.
fn numbered(number: u64, fields: usize, words: &mut Words) -> Option<Vec<u64>> {
    let mut numbers = vec![number];
    for _ in 0..fields {
        numbers.push(words.number()?);
    }
    Some(numbers)
}
