// Stand-in for network_protocol/mod.rs, which is not there: the modules that the given files name.
pub mod data_link;
pub mod network_pdu;
