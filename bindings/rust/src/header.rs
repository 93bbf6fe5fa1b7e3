//! The headers of confirmed services, read and written.
use crate::answer::{accepted, boolean, Numbers, Refusal};
use crate::calls;
use crate::reader::Reader;
use crate::service_choice::ConfirmedServiceChoice;
use crate::writer::Writer;

/// The header of a request; segments and size are numbers of four bits.
#[derive(Debug, Clone, Copy, PartialEq, Eq)]
pub struct ConfirmedRequest {
    pub max_segments: u8,
    pub max_adpu: u8,
    pub invoke_id: u8,
    pub service_choice: ConfirmedServiceChoice,
}

/// A simple acknowledgement, which is all header.
#[derive(Debug, Clone, Copy, PartialEq, Eq)]
pub struct SimpleAck {
    pub invoke_id: u8,
    pub service_choice: ConfirmedServiceChoice,
}

/// The header of a complex acknowledgement.
#[derive(Debug, Clone, Copy, PartialEq, Eq)]
pub struct ComplexAck {
    pub invoke_id: u8,
    pub service_choice: ConfirmedServiceChoice,
}

/// A segment acknowledgement, which is all header.
#[derive(Debug, Clone, Copy, PartialEq, Eq)]
pub struct SegmentAck {
    pub invoke_id: u8,
    pub sequence_num: u8,
    pub proposed_window_size: u8,
}

/// The header of an error; class and code are numbers as they stand.
#[derive(Debug, Clone, Copy, PartialEq, Eq)]
pub struct ConfirmedBacnetError {
    pub invoke_id: u8,
    pub service_choice: ConfirmedServiceChoice,
    pub error_class: u32,
    pub error_code: u32,
}

/// A reject, which is all header; the reason is a number as it stands.
#[derive(Debug, Clone, Copy, PartialEq, Eq)]
pub struct Reject {
    pub invoke_id: u8,
    pub reason: u8,
}

/// An abort, which is all header, and whether a server sent it; the reason is a number as it stands.
#[derive(Debug, Clone, Copy, PartialEq, Eq)]
pub struct Abort {
    pub server: bool,
    pub invoke_id: u8,
    pub reason: u8,
}

/// A header of any of the seven types.
#[derive(Debug, Clone, Copy, PartialEq, Eq)]
pub enum Header {
    ConfirmedRequest(ConfirmedRequest),
    SimpleAck(SimpleAck),
    ComplexAck(ComplexAck),
    SegmentAck(SegmentAck),
    ConfirmedBacnetError(ConfirmedBacnetError),
    Reject(Reject),
    Abort(Abort),
}

impl Header {
    /// The header at the reader's place, from its control byte on.
    #[inline]
    pub fn decode(reader: &mut Reader, buf: &[u8]) -> Result<Self, Refusal> {
        let told = calls::decode_header(reader.view(buf), reader.index);
        let next = accepted(&told)?;
        let header = Self::told(&told).ok_or(Refusal::UNNAMED)?;
        reader.index = next;
        Ok(header)
    }

    /// The header that the numbers tell.
    #[inline]
    pub(crate) fn told(told: &Numbers) -> Option<Self> {
        let field = |place: usize| u8::try_from(told[place]).ok();
        let wide = |place: usize| u32::try_from(told[place]).ok();
        let choice = |place| ConfirmedServiceChoice::try_from(field(place)?).ok();
        Some(match told[2] {
            0 => Header::ConfirmedRequest(ConfirmedRequest {
                max_segments: field(3)?,
                max_adpu: field(4)?,
                invoke_id: field(5)?,
                service_choice: choice(6)?,
            }),
            2 => Header::SimpleAck(SimpleAck { invoke_id: field(3)?, service_choice: choice(4)? }),
            3 => {
                Header::ComplexAck(ComplexAck { invoke_id: field(3)?, service_choice: choice(4)? })
            }
            4 => Header::SegmentAck(SegmentAck {
                invoke_id: field(3)?,
                sequence_num: field(4)?,
                proposed_window_size: field(5)?,
            }),
            5 => Header::ConfirmedBacnetError(ConfirmedBacnetError {
                invoke_id: field(3)?,
                service_choice: choice(4)?,
                error_class: wide(5)?,
                error_code: wide(6)?,
            }),
            6 => Header::Reject(Reject { invoke_id: field(3)?, reason: field(4)? }),
            7 => Header::Abort(Abort {
                server: boolean(told[3])?,
                invoke_id: field(4)?,
                reason: field(5)?,
            }),
            _ => return None,
        })
    }

    /// Writes the header.
    #[inline]
    pub fn encode(&self, writer: &mut Writer) -> Result<(), Refusal> {
        match self {
            Header::ConfirmedRequest(header) => header.encode(writer),
            Header::SimpleAck(header) => header.encode(writer),
            Header::ComplexAck(header) => header.encode(writer),
            Header::SegmentAck(header) => header.encode(writer),
            Header::ConfirmedBacnetError(header) => header.encode(writer),
            Header::Reject(header) => header.encode(writer),
            Header::Abort(header) => header.encode(writer),
        }
    }
}

/// Writes the header of a PDU type and its fields in their order.
#[inline]
fn put<F: Into<u64>>(kind: u8, fields: [F; 4], writer: &mut Writer) -> Result<(), Refusal> {
    let told = calls::encode_header(kind, fields.map(F::into), writer.buf, writer.index);
    writer.written(told)
}

impl ConfirmedRequest {
    /// Writes the header.
    #[inline]
    pub fn encode(&self, writer: &mut Writer) -> Result<(), Refusal> {
        let choice = self.service_choice as u8;
        put(0, [self.max_segments, self.max_adpu, self.invoke_id, choice], writer)
    }
}

impl SimpleAck {
    /// Writes the acknowledgement.
    #[inline]
    pub fn encode(&self, writer: &mut Writer) -> Result<(), Refusal> {
        put(2, [self.invoke_id, self.service_choice as u8, 0, 0], writer)
    }
}

impl ComplexAck {
    /// Writes the header.
    #[inline]
    pub fn encode(&self, writer: &mut Writer) -> Result<(), Refusal> {
        put(3, [self.invoke_id, self.service_choice as u8, 0, 0], writer)
    }
}

impl SegmentAck {
    /// Writes the acknowledgement.
    #[inline]
    pub fn encode(&self, writer: &mut Writer) -> Result<(), Refusal> {
        put(4, [self.invoke_id, self.sequence_num, self.proposed_window_size, 0], writer)
    }
}

impl ConfirmedBacnetError {
    /// Writes the header.
    #[inline]
    pub fn encode(&self, writer: &mut Writer) -> Result<(), Refusal> {
        let (id, choice) = (u32::from(self.invoke_id), self.service_choice as u32);
        put(5, [id, choice, self.error_class, self.error_code], writer)
    }
}

impl Reject {
    /// Writes the reject.
    #[inline]
    pub fn encode(&self, writer: &mut Writer) -> Result<(), Refusal> {
        put(6, [self.invoke_id, self.reason, 0, 0], writer)
    }
}

impl Abort {
    /// Writes the abort.
    #[inline]
    pub fn encode(&self, writer: &mut Writer) -> Result<(), Refusal> {
        put(7, [u8::from(self.server), self.invoke_id, self.reason, 0], writer)
    }
}
