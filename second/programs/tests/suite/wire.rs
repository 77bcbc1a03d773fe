//! The names for what stands on the wire and in memory: the definitions, the code and docs/HOST.md give each the same
//! number.

use std::collections::BTreeMap;
use std::fs;

use kit::files::ROOT;

fn text(path: &str) -> String {
    fs::read_to_string(format!("{ROOT}/{path}")).unwrap()
}

fn value(digits: &str) -> u64 {
    let hex = digits.strip_prefix("0x");
    hex.map_or(digits.parse(), |hex| u64::from_str_radix(hex, 16))
        .unwrap()
}

/// The names of the definitions, as the code writes them: `name = number` on a line of its own.
fn defined(specs: &str) -> BTreeMap<String, u64> {
    let lines = specs.lines().filter_map(|line| line.split_once(" = "));
    let pairs = lines.map(|(name, number)| (name.to_ascii_uppercase(), value(number)));
    pairs.collect()
}

/// The constants of the code that are a number.
fn constants(code: &str) -> BTreeMap<String, u64> {
    let lines = code.lines().filter_map(|l| l.strip_prefix("pub const "));
    let parts = lines.map(|line| {
        let (name, rest) = line.split_once(": ").unwrap();
        let (_, number) = rest.trim_end_matches(';').split_once(" = ").unwrap();
        (name.to_string(), value(number))
    });
    parts.collect()
}

#[test]
fn the_code_has_every_name_of_the_definitions_with_its_number() {
    let defined = defined(&text("crates/meaning/specs/Wire.antt"));
    let constants = constants(&text("crates/wire/src/lib.rt"));
    assert!(defined.len() > 20, "{} names", defined.len());
    for (name, number) in &defined {
        assert_eq!(constants.get(name), Some(number), "{name}");
    }
}

#[test]
fn another_number_or_a_missing_name_is_seen() {
    let defined = defined("abbrev pub type_notify_ack : ℕ\ntype_notify_ack = 0x0A\n");
    let code = constants("pub const TYPE_NOTIFY_ACK: u8 = 0x0A;\npub const MORE: usize = 7;\n");
    assert_eq!(defined["TYPE_NOTIFY_ACK"], 10);
    assert_eq!((code["TYPE_NOTIFY_ACK"], code["MORE"]), (10, 7));
    assert_eq!(
        constants("pub const TYPE: u8 = 1;\n").get("TYPE_NOTIFY_ACK"),
        None
    );
}

/// Constants of `endpoint` and their numbers, as docs/HOST.md has them in rows of a table.
fn told(host: &str) -> Vec<(String, u64)> {
    let rows = host.lines().filter_map(|line| line.strip_prefix("| `"));
    let cells = rows.filter_map(|row| row.split_once("` | "));
    let numbers = cells.map(|(names, rest)| (names, rest.split(" | ").next().unwrap_or("")));
    let pairs = numbers.flat_map(|(names, numbers)| {
        let names = names.split("`, `").map(String::from);
        names.zip(numbers.split(", ").map(|n| n.replace(',', "")))
    });
    let constant = |name: &str| {
        name.chars()
            .all(|c| c.is_ascii_uppercase() || c.is_ascii_digit() || c == '_')
    };
    pairs
        .filter(|(name, _)| constant(name))
        .map(|(name, number)| (name, number.parse().unwrap()))
        .collect()
}

#[test]
fn a_host_is_told_the_numbers_of_the_code() {
    let table = constants(&text("crates/table/src/lib.rt"));
    // A host keeps form B, in which an octet stands ahead of all places of the table.
    let behind = table["BEHIND_AT"];
    assert_eq!(behind + table["MEMORY_LENGTH"], table["FORM_LENGTH"]);
    let cell = behind + table["CELL_LENGTH"] * table["COMMIT"];
    let mut known = constants(&text("crates/wire/src/lib.rt"));
    known.insert("MEMORY_LENGTH".into(), table["FORM_LENGTH"]);
    known.insert("PROFILE_AT".into(), table["PROFILE_AT"]);
    known.insert("RUNNING_FLAGS_AT".into(), cell + table["FLAGS_AT"]);
    known.insert("RUNNING_LENGTH_AT".into(), cell + table["SIZE_AT"]);
    known.insert("RUNNING_AT".into(), behind + table["RUNNING_AT"]);
    let told = told(&text("docs/HOST.md"));
    let code = text("crates/endpoint/src/lib.rt");
    let offered = code.lines().filter(|line| line.starts_with("pub const "));
    assert_eq!((told.len(), offered.count()), (11, 11));
    for (name, number) in &told {
        assert_eq!(known.get(name), Some(number), "{name}");
        let offers = |kind| code.contains(&format!("pub const {name}: {kind} = "));
        assert!(offers("usize") || offers("u8"), "{name}");
    }
}
