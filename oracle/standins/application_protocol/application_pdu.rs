// Stand-in for application_protocol/application_pdu.rs, which is not there: its numbers are the standard's (clause 20.1).
use crate::application_protocol::confirmed::{ComplexAck, SegmentAck, SimpleAck};

#[derive(Debug, Clone)]
pub enum ApduType {
    ConfirmedServiceRequest = 0,
    SimpleAck = 2,
    ComplexAck = 3,
    SegmentAck = 4,
}

pub enum PduFlags {
    SegmentedResponseAccepted = 2,
}

#[derive(Debug, Clone)]
pub enum ApplicationPdu<'a> {
    SimpleAck(SimpleAck),
    ComplexAck(ComplexAck<'a>),
    SegmentAck(SegmentAck),
}

// Clause 20.1.2.4; the number is the whole byte, with the high nibble alone.
#[derive(Debug, Clone)]
#[repr(u8)]
pub enum MaxSegments {
    _0 = 0x00,
    _2 = 0x10,
    _4 = 0x20,
    _8 = 0x30,
    _16 = 0x40,
    _32 = 0x50,
    _64 = 0x60,
    _65 = 0x70,
}

impl From<u8> for MaxSegments {
    fn from(byte: u8) -> Self {
        match byte {
            0x00 => Self::_0,
            0x10 => Self::_2,
            0x20 => Self::_4,
            0x30 => Self::_8,
            0x40 => Self::_16,
            0x50 => Self::_32,
            0x60 => Self::_64,
            0x70 => Self::_65,
            _ => panic!("a nibble without a name"),
        }
    }
}

// Clause 20.1.2.5; the low nibble.
#[derive(Debug, Clone)]
#[repr(u8)]
pub enum MaxAdpu {
    _50 = 0,
    _128 = 1,
    _206 = 2,
    _480 = 3,
    _1024 = 4,
    _1476 = 5,
}

impl From<u8> for MaxAdpu {
    fn from(byte: u8) -> Self {
        match byte {
            0 => Self::_50,
            1 => Self::_128,
            2 => Self::_206,
            3 => Self::_480,
            4 => Self::_1024,
            5 => Self::_1476,
            _ => panic!("a nibble without a name"),
        }
    }
}
