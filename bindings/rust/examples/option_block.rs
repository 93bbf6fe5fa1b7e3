//! Reads what three boards answered to a ReadPropertyMultiple request: a revision, a model, and an option block if there is one.
use thaolisem::*;

/// The properties asked for: the model's name is the standard's, the two others are the maker's own.
const REVISION: u64 = 512;
const MODEL: u64 = 70;
const OPTIONS: u64 = 513;

/// A board with options: the value of that property, block 4, holds block 0, and that a block of its own.
#[rustfmt::skip]
const WITH_OPTIONS: [u8; 43] = [
    0x30, 0x01, 0x0E, 0x0C, 0x02, 0x00, 0x00, 0x05, 0x1E,
    0x2A, 0x02, 0x00, 0x4E, 0x21, 0x04, 0x4F,
    0x29, 0x46, 0x4E, 0x75, 0x07, 0x00, b'V', b'R', b'-', b'8', b'0', b'0', 0x4F,
    0x2A, 0x02, 0x01, 0x4E, 0x0E, 0x21, 0x01, 0x1E, 0x91, 0x02, 0x1F, 0x0F, 0x4F,
    0x1F,
];

/// A board without: the value holds nothing.
#[rustfmt::skip]
const WITHOUT_OPTIONS: [u8; 35] = [
    0x30, 0x02, 0x0E, 0x0C, 0x02, 0x00, 0x00, 0x06, 0x1E,
    0x2A, 0x02, 0x00, 0x4E, 0x21, 0x03, 0x4F,
    0x29, 0x46, 0x4E, 0x75, 0x07, 0x00, b'V', b'R', b'-', b'8', b'0', b'0', 0x4F,
    0x2A, 0x02, 0x01, 0x4E, 0x4F,
    0x1F,
];

/// Where the first board's option block begins, and where a third board's answer, otherwise the first's, was cut.
const OPTIONS_AT: usize = 33;
const CUT_AT: usize = 36;

/// The bytes as hexadecimal digits.
fn hex(bytes: &[u8]) -> String {
    bytes.iter().map(|byte| format!("{byte:02X}")).collect()
}

/// What stands in the value of a property; none where the answer has another property there.
fn value_of<'a>(
    property: u64,
    reader: &mut Reader,
    frame: &'a [u8],
) -> Result<Option<&'a [u8]>, Refusal> {
    let tag = Tag::decode_expected(reader, frame, TagNumber::ContextSpecific(2))?;
    if decode_unsigned(tag.value, reader, frame)? != property {
        return Ok(None);
    }
    get_tagged_body_for_tag(reader, frame, 4).map(Some)
}

/// The first value that stands in these bytes.
fn value(bytes: &[u8]) -> Result<ApplicationDataValue<'_>, Refusal> {
    ApplicationDataValue::decode(&mut Reader::default(), bytes)
}

/// Prints the option block in the value of a board's options, or that there is none.
fn options(value: &[u8]) -> Result<(), Refusal> {
    match get_optional_tagged_body(&mut Reader::default(), value, 0)? {
        Some(body) => println!("  options: {}", hex(body.view)),
        None => println!("  options: none"),
    }
    Ok(())
}

/// Prints what may be filed of a board's answer; false where it is another answer than the one asked for.
fn board(frame: &[u8]) -> Result<bool, Refusal> {
    let mut reader = Reader::default();
    let service = match Header::decode(&mut reader, frame)? {
        Header::ComplexAck(ack) => Some(ack.service_choice),
        _ => None,
    };
    if service != Some(ConfirmedServiceChoice::ReadPropMultiple) {
        return Ok(false);
    }
    // From here on every block that was begun is whole.
    println!("  tags: {}", walk(&reader, frame)?);
    let object = Tag::decode_expected(&mut reader, frame, TagNumber::ContextSpecific(0))?;
    reader.read_slice(object.value as usize, frame)?;
    Tag::decode_expected(&mut reader, frame, TagNumber::ContextSpecificOpening(1))?;
    match value_of(REVISION, &mut reader, frame)?.map(value) {
        Some(Ok(ApplicationDataValue::UnsignedInt(number))) => println!("  revision: {number}"),
        Some(Err(refusal)) => return Err(refusal),
        _ => return Ok(false),
    }
    match value_of(MODEL, &mut reader, frame)?.map(value) {
        Some(Ok(ApplicationDataValue::CharacterString(text))) => {
            println!("  model: {}", text.inner)
        }
        Some(Err(refusal)) => return Err(refusal),
        _ => return Ok(false),
    }
    match value_of(OPTIONS, &mut reader, frame)? {
        Some(value) => options(value).map(|()| true),
        None => Ok(false),
    }
}

fn main() {
    let cut = &WITH_OPTIONS[..CUT_AT];
    for (number, frame) in [&WITH_OPTIONS[..], &WITHOUT_OPTIONS[..], cut].into_iter().enumerate() {
        println!("board {}", number + 1);
        match board(frame) {
            Ok(true) => (),
            Ok(false) => println!("  not what was asked for"),
            Err(refusal) => println!("  unreadable, ask again: {refusal}"),
        }
    }
    // Also without the walk a block that was cut is refused, and never none.
    let mut reader = Reader { index: OPTIONS_AT, ..Reader::default() };
    match get_optional_tagged_body(&mut reader, cut, 0) {
        Err(refusal) => println!("its option block alone: {refusal}, tags read: {}", refusal.tags),
        Ok(found) => println!("its option block alone: {found:?}"),
    }
}
