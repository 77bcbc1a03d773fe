//! The tools and the programs of this workspace, and running them as child processes.

use std::path::Path;
use std::sync::LazyLock;

pub use kit::process::*;

pub const TRAFFIC: &str = env!("CARGO_BIN_EXE_traffic");
pub const COMPARE: &str = env!("CARGO_BIN_EXE_compare");
pub const MEASURE: &str = env!("CARGO_BIN_EXE_measure");
pub static BRIDGE: LazyLock<&str> = LazyLock::new(|| beside("bridge"));
pub static RIG: LazyLock<&str> = LazyLock::new(|| beside("rig"));
pub static DESK: LazyLock<&str> = LazyLock::new(|| beside("desk"));

/// A program of the other package. Where the tests of the whole workspace are built, it is built
/// into the folder of the tools.
fn beside(program: &str) -> &'static str {
    let path = Path::new(COMPARE).with_file_name(program);
    let missing = "is not built: it is built with the tests of the whole workspace";
    assert!(path.exists(), "{path:?} {missing}");
    path.into_os_string().into_string().unwrap().leak()
}
