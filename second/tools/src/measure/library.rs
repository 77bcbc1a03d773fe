//! A library as llvm-objdump or objdump lists it: its sections, its disassembly, its relocations.

use std::io::{self, ErrorKind};
use std::process::Command;

use super::fault::told;

/// Programs that list a library, in the order in which they are tried.
const TOOLS: [&str; 2] = ["llvm-objdump", "objdump"];
/// What they are asked for: the heads of sections, code, relocations, no octets beside the code.
const ASKED: [&str; 4] = ["-h", "-d", "-r", "--no-show-raw-insn"];

/// The listing of a library.
pub fn listing(library: &str) -> io::Result<String> {
    for tool in TOOLS {
        let mut command = Command::new(tool);
        command.args(ASKED).arg(library);
        let output = match command.output() {
            Err(error) if error.kind() == ErrorKind::NotFound => continue,
            other => other.map_err(|error| told(format_args!("cannot run {tool:?}"), &error))?,
        };
        if output.status.success() {
            return Ok(String::from_utf8_lossy(&output.stdout).into());
        }
        let said = String::from_utf8_lossy(&output.stderr);
        let said = said.trim().replace('\n', "; ");
        let why = format!("{tool} cannot read {library:?}: {said}");
        return Err(io::Error::other(why));
    }
    let tools = TOOLS.join(" nor ");
    let why = format!("neither {tools} is on the PATH, and the library is read by one of them");
    Err(io::Error::other(why))
}

/// Octets of a listed library in sections of a name, `.text` for code, or of names that go on from it
/// behind a dot. An error tells which size cannot be read.
pub fn octets(name: &str, listing: &str) -> Result<i64, String> {
    listing.lines().filter_map(|line| size(name, line)).sum()
}

/// The size in a line such as `  4 .text.call  0000001c 0000000000000000 TEXT`; none if the line is not
/// the head of a section of that name.
fn size(name: &str, line: &str) -> Option<Result<i64, String>> {
    let mut words = line.split_whitespace();
    words.next()?.parse::<u32>().ok()?;
    let section = words.next()?;
    let rest = section.strip_prefix(name)?;
    if !rest.is_empty() && !rest.starts_with('.') {
        return None;
    }
    let size = words.next();
    let size = size.and_then(|size| i64::from_str_radix(size, 16).ok());
    Some(size.ok_or_else(|| format!("the section {section} has no size")))
}
