//! What the programs `bridge`, `rig` and `desk` are made of, and how every program starts and ends.
#![forbid(unsafe_code)]
#![warn(missing_docs)]

pub mod bridge;
pub mod desk;
mod line;
pub mod program;
pub mod rig;
pub mod stream;
