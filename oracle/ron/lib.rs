//! The oracle's stand-in for the crate's lib.rs: the modules that parse.rs leans on, and parse made visible.
#![no_std]
#![allow(dead_code, unused_imports)]

extern crate alloc;
extern crate std;

pub mod error;
pub mod extensions;
pub mod parse;
pub mod value;
