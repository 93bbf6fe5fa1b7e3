// Stand-in for network_protocol/data_link.rs, which is not there: the one field that the given files read.
use crate::network_protocol::network_pdu::NetworkPdu;

pub struct DataLink<'a> {
    pub npdu: Option<NetworkPdu<'a>>,
}
