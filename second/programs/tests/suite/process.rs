//! The programs `bridge`, `rig` and `desk`, and running them as child processes.

pub use kit::process::*;

pub const BRIDGE: &str = env!("CARGO_BIN_EXE_bridge");
pub const RIG: &str = env!("CARGO_BIN_EXE_rig");
pub const DESK: &str = env!("CARGO_BIN_EXE_desk");
