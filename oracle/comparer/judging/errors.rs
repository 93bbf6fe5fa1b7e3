// Error frames: what the Rust answers, and the rows that it meets on the way: (j), (g), its panic, and (k) where the tag found is carried.
use crate::judging::Rust;
use protocol::Header;
use reference::headers::LAST_CHOICE;
use reference::integers::unsigned;
use reference::reading::byte;
use reference::refusal::{refuse, Refusal};
use reference::tags::{application, expected, LongBlockTags};

// Why the Rust reads no further.
enum Stop {
    Refusal(Refusal),
    Panic,
}

impl From<Refusal> for Stop {
    fn from(refusal: Refusal) -> Self {
        Stop::Refusal(refusal)
    }
}

// What the Rust must answer; where it meets no row, that is the port's answer.
pub fn rust(buf: &[u8], place: usize) -> Rust {
    let mut rows = Vec::new();
    let answer = match error(buf, place, &mut rows) {
        Ok((header, next)) => format!("ok {header} {next}"),
        Err(Stop::Refusal(refusal)) => refusal.to_string(),
        Err(Stop::Panic) => "panic".to_string(),
    };
    Rust { answer, rows }
}

// (j): the Rust knows the choice 34, and reads on.
fn error(buf: &[u8], place: usize, rows: &mut Vec<&'static str>) -> Result<(Header, usize), Stop> {
    let (_, next) = byte(buf, place)?;
    let (id, next) = byte(buf, next)?;
    let (choice, next) = byte(buf, next)?;
    if choice == LAST_CHOICE + 1 {
        rows.push("(j)");
    } else if choice > LAST_CHOICE {
        refuse(11, usize::from(choice))?;
    }
    let (class, next) = tagged(buf, next, rows)?;
    let (code, next) = tagged(buf, next, rows)?;
    Ok((Header::Error { id, choice, class, code }, next))
}

// A class or a code: by (g) the Rust keeps its low 32 bits, by (k) another tag is told as an ordinary one.
fn tagged(buf: &[u8], place: usize, rows: &mut Vec<&'static str>) -> Result<(u32, usize), Stop> {
    let [ordinary, standard] = [LongBlockTags::Ordinary, LongBlockTags::OpenAndClose]
        .map(|long| expected(application(9, 0).name, long, buf, place));
    if ordinary != standard {
        rows.push("(k)");
    }
    let (tag, next) = ordinary?;
    if tag.value == 0 {
        rows.push("panic: integer of length 0");
        return Err(Stop::Panic);
    }
    let (value, next) = unsigned(tag.value, buf, next)?;
    if value >> 32 != 0 && !rows.contains(&"(g)") {
        rows.push("(g)");
    }
    Ok((value as u32, next))
}
