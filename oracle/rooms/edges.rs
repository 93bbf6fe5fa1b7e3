// The integers next to the ends of what each length holds, and the tags that the writers take.
use crate::said::{Integer, Said, Under};

// How far from an end an integer may be.
const NEXT: i128 = 2;

// Unsigned ones: about 0, and about 256 to the power of each length.
fn unsigned() -> Vec<Integer> {
    let ends = (1..=8).map(|length| 1i128 << (8 * length));
    let near = around(ends.chain([0]));
    near.into_iter().filter_map(|near| u64::try_from(near).ok()).map(Integer::Unsigned).collect()
}

// Signed ones: about 0, and about half of 256 to the power of each length, on both sides of 0.
fn signed() -> Vec<Integer> {
    let ends = (1..=8).map(|length| 1i128 << (8 * length - 1));
    let near = around(ends.flat_map(|end| [-end, end]).chain([0]));
    near.into_iter().filter_map(|near| i64::try_from(near).ok()).map(Integer::Signed).collect()
}

// The numbers next to these ends, and the ends.
fn around(ends: impl Iterator<Item = i128>) -> Vec<i128> {
    ends.flat_map(|end| end - NEXT..=end + NEXT).collect()
}

// Each of these integers under each tag that its writers take.
pub fn edges() -> Vec<Said> {
    let contexts = || (0..=255).map(Under::Context);
    let (unsigned, signed) = (unsigned(), signed());
    let mut edges = Vec::new();
    for under in [2, 9].map(Under::Application).into_iter().chain(contexts()) {
        edges.extend(unsigned.iter().map(|&integer| Said { under, integer }));
    }
    for under in [3].map(Under::Application).into_iter().chain(contexts()) {
        edges.extend(signed.iter().map(|&integer| Said { under, integer }));
    }
    edges
}
