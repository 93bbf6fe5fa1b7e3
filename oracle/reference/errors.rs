// K2: what an error has behind its service choice, a class and a code, each an enumerated under application tag 9.
use crate::integers::{enumerated, unsigned_bytes};
use crate::refusal::Refusal;
use crate::tags::{application, expected, tag_bytes, LongBlockTags};

const ENUMERATED: u8 = 9;

// The class wholly, then the code, and the place behind both.
pub fn class_and_code(
    long: LongBlockTags,
    buf: &[u8],
    place: usize,
) -> Result<((u32, u32), usize), Refusal> {
    let (class, next) = tagged(long, buf, place)?;
    let (code, next) = tagged(long, buf, next)?;
    Ok(((class, code), next))
}

// The tag whole, 4 where it is another one, then its content as any enumerated's: 7, 3, 18.
fn tagged(long: LongBlockTags, buf: &[u8], place: usize) -> Result<(u32, usize), Refusal> {
    let (tag, next) = expected(application(ENUMERATED, 0).name, long, buf, place)?;
    enumerated(tag.value, buf, next)
}

// Both in the fewest bytes.
pub fn class_and_code_bytes(class: u32, code: u32) -> Vec<u8> {
    let tagged = |value: u32| {
        let content = unsigned_bytes(u64::from(value));
        [tag_bytes(application(ENUMERATED, content.len() as u32)), content].concat()
    };
    [tagged(class), tagged(code)].concat()
}
