//! Files of the repository that tests read: samples, and what is stored with the proved programs.

use std::fs;

use crate::messages::hex;

/// The repository's folder.
pub const ROOT: &str = concat!(env!("CARGO_MANIFEST_DIR"), "/../..");

/// A file of the sample with the given name.
pub fn sample(name: &str, ending: &str) -> String {
    fs::read_to_string(format!("{ROOT}/samples/{name}.{ending}")).unwrap()
}

/// The frames of a sample. A comment goes from `#` to the end of its line; what is left has to be
/// digits in pairs, so that any tool reads the same octets, line by line.
pub fn frames(sample: &str) -> Vec<u8> {
    let code = sample.lines().map(|line| line.split('#').next().unwrap());
    let words: Vec<&str> = code.flat_map(str::split_whitespace).collect();
    for word in &words {
        let digits = word.chars().all(|c| c.is_ascii_hexdigit());
        assert!(digits && word.len() % 2 == 0, "{word:?}");
    }
    hex(&words.concat())
}

/// What is stored in the folder of a proved program.
pub fn stored(program: &str, part: &str) -> Vec<u8> {
    fs::read(format!("{ROOT}/crates/{program}/{part}")).unwrap()
}
