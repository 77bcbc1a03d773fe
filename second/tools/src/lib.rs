//! What the programs `traffic`, `compare` and `measure` are made of.
#![forbid(unsafe_code)]
#![warn(missing_docs)]

pub mod arguments;
pub mod compare;
pub mod measure;
pub mod traffic;
