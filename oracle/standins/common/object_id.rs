// Stand-in for common/object_id.rs, which is not there: an identifier of no bytes, never compared.
use crate::common::{
    error::Error,
    io::{Reader, Writer},
};

#[derive(Debug, Clone, Copy)]
pub enum ObjectType {
    ObjectAnalogInput = 0,
    ObjectBinaryInput = 3,
    ObjectBinaryOutput = 4,
    ObjectBinaryValue = 5,
}

impl TryFrom<u32> for ObjectType {
    type Error = u32;

    fn try_from(number: u32) -> Result<Self, u32> {
        Err(number)
    }
}

#[derive(Debug, Clone)]
pub struct ObjectId {
    pub object_type: ObjectType,
}

impl ObjectId {
    pub const LEN: u32 = 4;

    pub fn encode(&self, _writer: &mut Writer) {}

    pub fn decode(_len: u32, _reader: &mut Reader, _buf: &[u8]) -> Result<Self, Error> {
        Ok(Self { object_type: ObjectType::ObjectAnalogInput })
    }
}
