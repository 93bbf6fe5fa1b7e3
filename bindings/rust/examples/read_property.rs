//! Reads the answer to a ReadProperty request, prints its parts, and writes the same answer from them.
use thaolisem::*;

// The second frame of samples/frames.txt.
const FRAME: [u8; 17] = [
    0x30, 0x01, 0x0C, 0x0C, 0x00, 0x80, 0x00, 0x05, 0x19, 0x55, 0x3E, 0x44, 0x42, 0x90, 0x00, 0x00,
    0x3F,
];

/// What the answer holds.
struct Answer<'a> {
    header: Header,
    object: u32,
    property: u64,
    value: ApplicationDataValue<'a>,
}

/// The bytes as hexadecimal digits.
fn hex(bytes: &[u8]) -> String {
    bytes.iter().map(|byte| format!("{byte:02X}")).collect()
}

/// Reads the answer, and prints each part as it is read.
fn read(frame: &[u8]) -> Result<Answer<'_>, Refusal> {
    let mut reader = Reader::default();
    let header = Header::decode(&mut reader, frame)?;
    if let Header::ComplexAck(ack) = header {
        let choice = ack.service_choice as u8;
        println!("header: complex acknowledgement, invoke id {}, choice {choice}", ack.invoke_id);
    }
    let tag = Tag::decode_expected(&mut reader, frame, TagNumber::ContextSpecific(0))?;
    println!("tag: context 0, value {}", tag.value);
    let object = u32::from_be_bytes(reader.read_bytes(frame)?);
    println!("object: type {}, instance {}", object >> 22, object & 0x3F_FFFF);
    let tag = Tag::decode_expected(&mut reader, frame, TagNumber::ContextSpecific(1))?;
    println!("tag: context 1, value {}", tag.value);
    let property = decode_unsigned(tag.value, &mut reader, frame)?;
    println!("property: {property}");

    let short = get_tagged_body_within(1, &mut reader, frame);
    println!("body, allowance of 1 tag: {}", short.unwrap_err());
    let body = get_tagged_body_within(frame.len(), &mut reader, frame)?;
    println!("body {}: {}, {} tags", body.number, hex(body.view), body.tags);
    let value = ApplicationDataValue::decode(&mut Reader::default(), body.view)?;
    if let ApplicationDataValue::Real(real) = value {
        println!("value: real {real}");
    }
    Ok(Answer { header, object, property, value })
}

/// Writes the answer.
fn write(answer: &Answer, writer: &mut Writer) -> Result<(), Refusal> {
    answer.header.encode(writer)?;
    Tag::new(TagNumber::ContextSpecific(0), 4).encode(writer)?;
    writer.extend_from_slice(&answer.object.to_be_bytes())?;
    encode_context_unsigned(writer, 1, answer.property)?;
    encode_opening_tag(writer, 3)?;
    answer.value.encode(writer)?;
    encode_closing_tag(writer, 3)
}

fn main() -> Result<(), Refusal> {
    let answer = read(&FRAME)?;
    let mut buf = [0; 50];
    let mut writer = Writer::new(&mut buf);
    write(&answer, &mut writer)?;
    println!("written: {}", hex(writer.to_bytes()));
    Ok(())
}
