// Stand-in for network_protocol/network_pdu.rs, which is not there: the one field that the given files read.
use crate::application_protocol::application_pdu::ApplicationPdu;

pub struct NetworkPdu<'a> {
    pub network_message: NetworkMessage<'a>,
}

pub enum NetworkMessage<'a> {
    Apdu(ApplicationPdu<'a>),
    Other,
}
