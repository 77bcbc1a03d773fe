//! Reading the numbers among a program's arguments.

/// Reads a number of the given meaning.
pub fn number(meaning: &str, word: &str) -> Result<u64, String> {
    let number = word.parse();
    number.map_err(|_| format!("{meaning} is a number of at most 64 bits, not {word:?}"))
}
