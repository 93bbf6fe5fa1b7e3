// Stand-in for application_protocol/primitives/mod.rs, which is not there.
pub mod data_value;
