//! The processor that this machine has, and those that programs are compiled for.

use std::env;
use std::fs::{self, File};
use std::io::{self, Read};
use std::path::Path;

use super::fault::told;

/// Octets of a file in the form ELF up to and with the number of its processor.
const HEAD: usize = 20;
/// What such a file says of the order of octets in its numbers.
const LOW_FIRST: u8 = 1;
const HIGH_FIRST: u8 = 2;

/// Where Linux tells of the machine's processors, each thing in a line of a word, a colon and a value.
const INFORMATION: &str = "/proc/cpuinfo";
/// The words that say which processor it is: the first on some machines, the others on some.
const WORDS: [&str; 3] = ["model name", "CPU implementer", "CPU part"];

/// This machine's processor.
pub fn own() -> String {
    let information = fs::read_to_string(INFORMATION).unwrap_or_default();
    described(env::consts::ARCH, &information)
}

/// A processor in words: for what it is compiled, what is told of the first core, how many there are.
pub fn described(architecture: &str, information: &str) -> String {
    let lines = information.lines().filter_map(|line| line.split_once(':'));
    let lines: Vec<_> = lines
        .map(|(word, value)| (word.trim(), value.trim()))
        .collect();
    let told = WORDS.iter().filter_map(|word| {
        let (word, value) = lines.iter().find(|(told, _)| told == word)?;
        Some(format!("{word} {value}"))
    });
    let mut words: Vec<String> = [architecture.into()].into_iter().chain(told).collect();
    let cores = lines
        .iter()
        .filter(|(word, _)| *word == "processor")
        .count();
    words.extend((cores > 0).then(|| format!("cores {cores}")));
    words.join(", ")
}

/// What keeps the times of a program and the second one from being compared on this machine. One for
/// another processor is run by an emulator, if at all, and what is not compiled may start one.
pub fn obstacle(name: &str, programs: &[String; 2]) -> io::Result<Option<String>> {
    let own = of(&env::current_exe()?)?;
    for (name, program) in [name, "second"].iter().zip(programs) {
        let found = of(program.as_ref())?;
        if found.is_none() {
            return Ok(Some(format!("the {name} is not a compiled program")));
        }
        if found != own {
            let why = format!("the {name} is compiled for another processor than this machine's");
            return Ok(Some(why));
        }
    }
    Ok(None)
}

fn of(program: &Path) -> io::Result<Option<u16>> {
    let mut head = Vec::new();
    File::open(program)
        .and_then(|file| file.take(HEAD as u64).read_to_end(&mut head))
        .map_err(|error| told(format_args!("cannot read {program:?}"), &error))?;
    Ok(number(&head))
}

/// The number of the processor that a program is for, from the first octets of its file; none if
/// the file has another form than ELF.
pub fn number(head: &[u8]) -> Option<u16> {
    let head: &[u8; HEAD] = head.first_chunk()?;
    match head {
        [0x7F, b'E', b'L', b'F', _, LOW_FIRST, .., a, b] => Some(u16::from_le_bytes([*a, *b])),
        [0x7F, b'E', b'L', b'F', _, HIGH_FIRST, .., a, b] => Some(u16::from_be_bytes([*a, *b])),
        _ => None,
    }
}
