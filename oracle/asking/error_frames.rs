// Error frames, asked of the given Rust behind their control byte; it has no reject, no abort and no writer of an error.
use embedded_bacnet::application_protocol::confirmed::ConfirmedBacnetError;
use embedded_bacnet::common::error::Error;
use embedded_bacnet::common::io::Reader;
use embedded_bacnet::common::tag::Tag;
use protocol::Header;

pub fn read(reader: &mut Reader, buf: &[u8]) -> Result<Header, Error> {
    let error = ConfirmedBacnetError::decode(reader, buf)?;
    Ok(Header::Error {
        id: error.invoke_id,
        choice: error.service_choice as u8,
        class: error.error_class.number,
        code: error.error_code.number,
    })
}

// Where the tag stands that was not the expected one: behind the choice, or behind the class, which is read once more.
pub fn place_of(context: &str, buf: &[u8], control: usize) -> Option<usize> {
    let mut reader = Reader { index: control + 3, end: buf.len() };
    match context {
        "ConfirmedBacnetError error class" => {}
        "ConfirmedBacnetError error code" => {
            let class = Tag::decode(&mut reader, buf).ok()?;
            reader.read_slice(class.value as usize, buf).ok()?;
        }
        _ => return None,
    }
    Some(reader.index)
}
