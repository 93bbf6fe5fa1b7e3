// Stand-in for application_protocol/mod.rs, which is not there: the modules that the given files name.
pub mod application_pdu;
pub mod confirmed;
pub mod primitives;
pub mod services;
pub mod unconfirmed;
