// The strict walk over items and blocks, from a place to the buffer's end.
use crate::refusal::{refuse, Refusal};
use crate::tags::{content_length, tag, LongBlockTags};
use protocol::{Class, Tag};

const BLOCKS: usize = 16;

// Whether the walk accepts, and how many tags it accepted.
pub fn walk(long: LongBlockTags, buf: &[u8], mut place: usize) -> (Result<(), Refusal>, u64) {
    let mut open = Vec::new();
    let mut count = 0;
    while place < buf.len() {
        match item_tag(long, buf, place, &mut open) {
            Ok((_, next)) => place = next,
            Err(refusal) => return (Err(refusal), count),
        }
        count += 1;
    }
    if open.is_empty() {
        (Ok(()), count)
    } else {
        (refuse(3, buf.len()), count)
    }
}

// One tag, and the place after its content; the open blocks follow it.
fn item_tag(
    long: LongBlockTags,
    buf: &[u8],
    place: usize,
    open: &mut Vec<u8>,
) -> Result<(Tag, usize), Refusal> {
    let (tag, next) = tag(long, buf, place)?;
    let end = next + content_length(tag);
    if end > buf.len() {
        return refuse(3, end);
    }
    match tag.name.class {
        Class::Opening if open.len() == BLOCKS => return refuse(16, place),
        Class::Opening => open.push(tag.name.number),
        Class::Closing if open.last() != Some(&tag.name.number) => return refuse(15, place),
        Class::Closing => {
            open.pop();
        }
        _ => {}
    }
    Ok((tag, end))
}
