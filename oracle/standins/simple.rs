// Stand-in for simple.rs, which is not there: it hands out what common::helper keeps inside the crate.
pub use crate::common::helper::*;
