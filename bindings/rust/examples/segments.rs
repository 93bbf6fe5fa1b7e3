//! Takes a board's answer to a ReadPropertyMultiple request in three segments and acknowledges them, then reads the parts joined: a revision, a model, and an option block if there is one.
use thaolisem::*;

/// The request that is answered, and the window that the board proposes, which is granted.
const INVOKE_ID: u8 = 7;
const WINDOW: u8 = 2;

/// The properties asked for: the model's name is the standard's, the two others are the maker's own.
const REVISION: u64 = 512;
const MODEL: u64 = 70;
const OPTIONS: u64 = 513;

// A board's answer in three frames, each a header of five bytes (control byte, invoke id, sequence number, window, service) and its part: an object, and in block 1 three properties, each with its value in block 4; the value of the options holds block 0, and that two options, each a number and a block of its own.

/// The first, behind which more follow: the object, its revision 5, and its model VR-900, cut inside the text.
#[rustfmt::skip]
const FIRST: [u8; 26] = [
    0x3C, 0x07, 0x00, 0x02, 0x0E, 0x0C, 0x02, 0x00, 0x00, 0x07, 0x1E,
    0x2A, 0x02, 0x00, 0x4E, 0x21, 0x05, 0x4F,
    0x29, 0x46, 0x4E, 0x75, 0x07, 0x00, b'V', b'R',
];

/// The second, behind which more follow: the model's rest, the first option, and the second, cut between a tag and its content.
#[rustfmt::skip]
const SECOND: [u8; 22] = [
    0x3C, 0x07, 0x01, 0x02, 0x0E, b'-', b'9', b'0', b'0', 0x4F,
    0x2A, 0x02, 0x01, 0x4E, 0x0E, 0x21, 0x01, 0x1E, 0x91, 0x02, 0x1F, 0x21,
];

/// The third, which is the last: the second option's rest, and the closing tags; no part alone passes the walk.
#[rustfmt::skip]
const THIRD: [u8; 13] = [
    0x38, 0x07, 0x02, 0x02, 0x0E, 0x03, 0x1E, 0x91, 0x05, 0x1F, 0x0F, 0x4F,
    0x1F,
];

/// The bytes as hexadecimal digits.
fn hex(bytes: &[u8]) -> String {
    bytes.iter().map(|byte| format!("{byte:02X}")).collect()
}

/// Writes and prints the acknowledgement of all segments that were taken so far.
fn acknowledge(segments: &Segments) -> Result<(), Refusal> {
    let mut buf = [0; 4];
    let mut writer = Writer::new(&mut buf);
    let sequence_num = segments.due().wrapping_sub(1);
    SegmentAck { invoke_id: INVOKE_ID, sequence_num, proposed_window_size: WINDOW }
        .encode(&mut writer)?;
    println!("  acknowledged: {}", hex(writer.to_bytes()));
    Ok(())
}

/// Takes the frames as they come, and acknowledges the first segment at once, then the last of each window, and the last of all.
fn receive(frames: &[&[u8]], buf: &mut [u8]) -> Result<Segments, Refusal> {
    let mut segments = Segments::default();
    let mut until_acknowledged = 1;
    for (number, frame) in frames.iter().enumerate() {
        print!("frame {}: ", number + 1);
        match segments.take(frame, buf) {
            Ok(Taken::More) => {
                print!("more follow");
                until_acknowledged -= 1;
            }
            Ok(Taken::Finished) => {
                print!("finished");
                until_acknowledged = 0;
            }
            // Nothing has changed, and the segment that is due may still come.
            Err(refusal) => print!("{refusal}"),
        }
        println!(", {} bytes held, sequence due {}", segments.held(), segments.due());
        if until_acknowledged == 0 {
            acknowledge(&segments)?;
            until_acknowledged = WINDOW;
        }
    }
    Ok(segments)
}

/// What stands in the value of a property; none where the answer has another property there.
fn value_of<'a>(
    property: u64,
    reader: &mut Reader,
    body: &'a [u8],
) -> Result<Option<&'a [u8]>, Refusal> {
    let tag = Tag::decode_expected(reader, body, TagNumber::ContextSpecific(2))?;
    if decode_unsigned(tag.value, reader, body)? != property {
        return Ok(None);
    }
    get_tagged_body_for_tag(reader, body, 4).map(Some)
}

/// The first value that stands in these bytes.
fn value(bytes: &[u8]) -> Result<ApplicationDataValue<'_>, Refusal> {
    ApplicationDataValue::decode(&mut Reader::default(), bytes)
}

/// Prints the option block in the value of a board's options, or that there is none.
fn options(value: &[u8]) -> Result<(), Refusal> {
    match get_optional_tagged_body(&mut Reader::default(), value, 0)? {
        Some(body) => println!("  options: {}", hex(body.view)),
        None => println!("  options: none"),
    }
    Ok(())
}

/// Prints what may be filed of the parts joined; false where they are another answer than the one asked for.
fn board(joined: &[u8]) -> Result<bool, Refusal> {
    let mut reader = Reader::default();
    // From here on every block that was begun is whole.
    println!("  tags: {}", walk(&reader, joined)?);
    let object = Tag::decode_expected(&mut reader, joined, TagNumber::ContextSpecific(0))?;
    reader.read_slice(object.value as usize, joined)?;
    Tag::decode_expected(&mut reader, joined, TagNumber::ContextSpecificOpening(1))?;
    match value_of(REVISION, &mut reader, joined)?.map(value) {
        Some(Ok(ApplicationDataValue::UnsignedInt(number))) => println!("  revision: {number}"),
        Some(Err(refusal)) => return Err(refusal),
        _ => return Ok(false),
    }
    match value_of(MODEL, &mut reader, joined)?.map(value) {
        Some(Ok(ApplicationDataValue::CharacterString(text))) => {
            println!("  model: {}", text.inner)
        }
        Some(Err(refusal)) => return Err(refusal),
        _ => return Ok(false),
    }
    match value_of(OPTIONS, &mut reader, joined)? {
        Some(value) => options(value).map(|()| true),
        None => Ok(false),
    }
}

/// The parts joined, where all were taken and they answer the request.
fn answered<'a>(segments: &Segments, buf: &'a [u8]) -> Option<&'a [u8]> {
    let service = Some(ConfirmedServiceChoice::ReadPropMultiple);
    let asked = segments.invoke_id() == Some(INVOKE_ID) && segments.service_choice() == service;
    segments.joined(buf).filter(|_| segments.is_finished() && asked)
}

fn main() -> Result<(), Refusal> {
    let mut buf = [0; 64];
    // The board sends its second segment twice.
    let segments = receive(&[&FIRST, &SECOND, &SECOND, &THIRD], &mut buf)?;
    println!("board");
    match answered(&segments, &buf).map(board) {
        Some(Ok(true)) => (),
        Some(Err(refusal)) => println!("  unreadable, ask again: {refusal}"),
        _ => println!("  not what was asked for"),
    }
    Ok(())
}
