//! What the stored script of the proved rig asks about gates, and the stored lines that answer it.

use std::collections::BTreeSet;

use kit::files::stored;
use programs::rig::code;

use crate::gates_streams::{assert_cases, Seen};
use crate::stored_script::script;

/// Every line, by the clauses alone.
#[test]
fn the_stored_gates_are_those_of_the_clauses() {
    let mut seen = Seen::default();
    seen.take(&stored("rig", "stdin"));
    let asked = script().into_iter().filter(|r| r.code == code::GATES);
    let lines: Vec<String> = asked.map(|r| r.line).collect();
    assert!(lines.len() > 2_000, "{} lines", lines.len());
    // The last instruction is faulty, and is not answered.
    assert_eq!(lines, seen.lines[..lines.len()]);
    assert!(seen.lines.len() - lines.len() <= 1);
}

#[test]
fn the_stored_script_asks_about_every_edge() {
    let mut seen = Seen::default();
    seen.take(&stored("rig", "stdin"));
    assert_cases(&seen, &["first", "second", "later", "far"], 3);
}

/// Every entry number, gate states with every bit, and nanoseconds of one digit up to the most.
#[test]
fn the_stored_answers_have_every_entry_and_every_bit() {
    let (mut entries, mut bits, mut digits) = (BTreeSet::new(), [0, 0], BTreeSet::new());
    for answered in script().iter().filter(|r| r.code == code::GATES) {
        let [_, states, entry, left] = answered.line.split(' ').collect::<Vec<_>>()[..] else {
            assert!(["0 -", "1 -", "15 -"].contains(&&*answered.line));
            continue;
        };
        let states = u8::from_str_radix(states, 16).unwrap();
        bits = [bits[0] | states, bits[1] | !states];
        entries.insert(entry.parse::<usize>().unwrap());
        digits.insert(left.len());
    }
    assert_eq!(entries, (0..64).collect());
    assert_eq!(bits, [0xFF; 2]);
    assert_eq!(digits, (1..=19).collect());
}
