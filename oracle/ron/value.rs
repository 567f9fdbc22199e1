//! The oracle's stand-in for the crate's value/mod.rs: the three names of value/number.rs that parse.rs uses.
mod number;

pub use number::{Number, F32, F64};
