//! The forms of the desk's lines and the shapes of the messages in them, as the tests of streams ask for
//! them. Nothing here is shared with the reader.

use std::collections::{BTreeMap, BTreeSet};

use crate::process::text;

/// A line, the octets in it if it holds some, and what `desk` prints for it.
pub struct Shown {
    pub line: Vec<u8>,
    pub octets: Option<Vec<u8>>,
    pub printed: Vec<String>,
}

impl Shown {
    fn of(line: &[u8]) -> Shown {
        let mut output = Vec::new();
        programs::desk::run(line, &mut output).unwrap();
        Shown {
            line: line.to_vec(),
            octets: octets(line),
            printed: text(&output).lines().map(String::from).collect(),
        }
    }

    fn first(&self) -> &str {
        self.printed.first().map_or("", String::as_str)
    }

    pub fn records(&self, kind: &str) -> usize {
        let kind = format!("  {kind} ");
        let of_kind = self.printed.iter().filter(|line| line.starts_with(&kind));
        of_kind.count()
    }

    /// What stands before the comment.
    fn content(&self) -> &[u8] {
        self.line.split(|c| *c == b'#').next().unwrap()
    }
}

/// The lines of a stream, each with what is printed for it alone.
pub fn shown(stream: &[u8]) -> Vec<Shown> {
    let stream = stream.strip_suffix(b"\n").unwrap_or(stream);
    let lines = stream.split(|character| *character == b'\n');
    lines.map(Shown::of).collect()
}

/// The octets of a line, read by words: each has whole pairs, and the first may be a single `0`.
fn octets(line: &[u8]) -> Option<Vec<u8>> {
    let content = line.split(|c| *c == b'#').next().unwrap();
    let content = String::from_utf8(content.to_vec()).ok()?;
    let mut words: Vec<&str> = content.split([' ', '\t', '\r']).collect();
    words.retain(|word| !word.is_empty());
    if words.first() == Some(&"0") {
        words.remove(0);
    }
    let pairs =
        |word: &&str| word.len().is_multiple_of(2) && word.bytes().all(|c| c.is_ascii_hexdigit());
    let whole = !words.is_empty() && words.iter().all(pairs);
    whole.then(|| kit::hex(&words.concat()))
}

/// The elements of a COMPLETE with their contents, and whether the last one is cut short.
fn elements(message: &[u8]) -> (Vec<(u8, &[u8])>, bool) {
    let (mut elements, mut rest) = (Vec::new(), &message[1..]);
    while let Some(identifier) = rest.first() {
        let width = match identifier >> 4 {
            8.. => 0,
            7 => 2,
            _ => 1,
        };
        let length = rest.get(1..1 + width).map(|told| {
            let told = told.iter();
            told.fold(0, |n, octet| n * 256 + usize::from(*octet))
        });
        let end = length.map(|length| 1 + width + length);
        let Some(end) = end.filter(|end| *end <= rest.len()) else {
            return (elements, true);
        };
        elements.push((*identifier, &rest[1 + width..end]));
        rest = &rest[end..];
    }
    (elements, false)
}

fn is_known(identifier: u8) -> bool {
    (0x70..=0x72).contains(&identifier)
}

/// The shapes of a message.
fn shapes(message: &[u8], found: &mut Vec<&'static str>) {
    let lengths = [(4_095, "4,095"), (4_096, "4,096"), (4_097, "4,097")];
    found.extend(lengths.iter().filter(|l| l.0 == message.len()).map(|l| l.1));
    if message.len() > 4_097 {
        found.push("far too long");
    }
    if message[0] != 2 || message.len() > 4_096 {
        return;
    }
    let (elements, cut) = elements(message);
    let mut last = 0;
    for (identifier, contents) in &elements {
        found.push(match identifier >> 4 {
            _ if is_known(*identifier) => "known",
            8.. => "unknown of one octet",
            7 => "unknown with two octets of length",
            _ => "unknown with one octet of length",
        });
        if is_known(*identifier) {
            let again = elements.iter().filter(|(i, _)| i == identifier).count() > 1;
            found.extend(again.then_some("a known one again"));
            found.extend((*identifier < last).then_some("a known one late"));
            found.extend(contents.is_empty().then_some("no contents"));
            last = last.max(*identifier);
        }
        match (identifier, contents) {
            (0x70, names) if names.len() > 2_000 => found.push("many names"),
            (0x70, names) if names.len() % 2 == 1 => found.push("half a name"),
            (0x72, [0, 0, 0, 0]) => found.push("long updates of length 0"),
            (0x71, [0, 0]) => found.push("no records"),
            _ => {}
        }
    }
    found.extend(cut.then_some("cut"));
}

/// The forms of a line that holds octets.
fn forms_of_octets(shown: &Shown, found: &mut Vec<&'static str>) {
    let (line, content) = (&shown.line[..], shown.content());
    let has = |characters: &[u8]| content.iter().any(|c| characters.contains(c));
    let trimmed = content.trim_ascii();
    for (form, holds) in [
        ("comment behind octets", content.len() < line.len()),
        ("junk in a comment", line.iter().any(|c| *c > 127)),
        ("as bridge prints it", content.starts_with(b"0 ")),
        ("octets alone", !trimmed.starts_with(b"0 ")),
        ("upper case", has(b"ABCDEF") && !has(b"abcdef")),
        ("both cases", has(b"ABCDEF") && has(b"abcdef")),
        ("spaces", trimmed.contains(&b' ')),
        ("tabs", has(b"\t")),
        ("carriage returns", has(b"\r")),
        (
            "blanks in front",
            content.len() > content.trim_ascii_start().len(),
        ),
        ("00 before octets", line.starts_with(b"00 ")),
        ("very long octets", line.len() > 9_999),
    ] {
        found.extend(holds.then_some(form));
    }
}

/// The forms of a line that holds none.
fn forms_of_others(shown: &Shown, found: &mut Vec<&'static str>) {
    let (line, content) = (&shown.line[..], shown.content());
    let digits = content.iter().filter(|c| c.is_ascii_hexdigit()).count();
    let nothing = content.trim_ascii().is_empty();
    let long = line.len() > 9_999;
    for (form, holds) in [
        ("empty", line.is_empty()),
        ("blanks", !line.is_empty() && line.trim_ascii().is_empty()),
        ("comment alone", nothing && !line.trim_ascii().is_empty()),
        ("odd digits", digits == content.len() && digits % 2 == 1),
        ("0 0 before octets", line.starts_with(b"0 0 ")),
        ("a number before octets", line.starts_with(b"7 0")),
        ("a sign", line.starts_with(b"-") || line.starts_with(b"+")),
        ("0 -", line == b"0 -"),
        (
            "a number with a zero",
            line.len() == 4 && line[0] == b'0' && line.ends_with(b" -"),
        ),
        ("three digits and a dash", line == b"100 -"),
        ("no blank before the dash", line == b"7-"),
        ("a word", line == b"cut"),
        ("an octet 0", content.contains(&0)),
        ("octets over 127", content.iter().any(|c| *c > 127)),
        ("very long blanks", line.starts_with(b"12\t\t\t\t") && long),
        (
            "very long, no message",
            shown.first() == "not a message" && long,
        ),
    ] {
        found.extend(holds.then_some(form));
    }
}

/// The forms of a line and the shapes of its message, each once.
pub fn names(shown: &Shown) -> BTreeSet<&'static str> {
    let mut found = Vec::new();
    match &shown.octets {
        Some(message) => {
            forms_of_octets(shown, &mut found);
            shapes(message, &mut found);
        }
        None => forms_of_others(shown, &mut found),
    }
    found.into_iter().collect()
}

/// What is printed: the first line of each, and the kinds and causes of records.
pub fn prints(shown: &Shown) -> BTreeSet<String> {
    let first = shown.first().to_string();
    let kinds = shown.printed.iter().skip(1).map(|line| {
        let words: Vec<&str> = line.split_whitespace().collect();
        match words[..] {
            [kind @ ("read-error" | "update-error"), _, _, cause, word] => {
                format!("{kind} {cause} {word}")
            }
            [kind, _, _, "-"] => format!("{kind} -"),
            [kind, ..] => kind.to_string(),
            [] => panic!("{line:?}"),
        }
    });
    kinds.chain([first]).collect()
}

/// Asserts that each is counted so often.
pub fn assert_often<K: AsRef<str> + Ord>(
    counts: &BTreeMap<K, usize>,
    wanted: &[&str],
    least: usize,
) {
    for what in wanted {
        let found = counts.iter().find(|(name, _)| name.as_ref() == *what);
        let count = found.map_or(0, |(_, count)| *count);
        assert!(count >= least, "{what}: {count} times");
    }
}

/// All forms and shapes that a stream is asked for.
pub const FORMS: &[&str] = &[
    "empty",
    "blanks",
    "comment alone",
    "comment behind octets",
    "as bridge prints it",
    "octets alone",
    "upper case",
    "both cases",
    "spaces",
    "tabs",
    "carriage returns",
    "blanks in front",
    "odd digits",
    "00 before octets",
    "0 0 before octets",
    "a number before octets",
    "a sign",
    "0 -",
    "a number with a zero",
    "three digits and a dash",
    "no blank before the dash",
    "a word",
    "an octet 0",
    "octets over 127",
    "junk in a comment",
];
pub const SHAPES: &[&str] = &[
    "4,095",
    "4,096",
    "4,097",
    "far too long",
    "known",
    "unknown of one octet",
    "unknown with two octets of length",
    "unknown with one octet of length",
    "a known one again",
    "a known one late",
    "no contents",
    "many names",
    "half a name",
    "long updates of length 0",
    "no records",
    "cut",
];
pub const PRINTED: &[&str] = &[
    "",
    "complete",
    "notify",
    "not a message",
    "3 -",
    "13 -",
    "14 -",
    "name",
    "value",
    "value -",
    "read-error 01 not-supported",
    "read-error 02 invalid-value",
    "read-error 03 unavailable",
    "read-error 6f protocol-error",
    "update",
    "update -",
    "update-error 01 not-supported",
    "update-error 02 invalid-value",
    "update-error 6f protocol-error",
    "long-update",
    "long-update -",
];
