//! The documents: each name that docs/LAWS.md and docs/TRACE.md give with a place stands there.

use std::fs;
use std::path::{Path, PathBuf};

use kit::files::ROOT;

/// Words that may stand before a name where it is declared.
const DECLARING: &str = "pub extern \"C\" fn struct enum const abbrev unfoldable record data";

/// Words that may stand before the name of a definition in specs, and what is declared there otherwise.
const HEADS: [&str; 4] = ["abbrev", "unfoldable", "opaque", "pub"];
const OTHERS: [&str; 4] = ["data", "record", "mod", "use"];

/// Names in backticks, joined by commas or `and`: the word before them, they, the text after them.
type Group<'a> = (&'a str, Vec<&'a str>, &'a str);

fn groups(cell: &str) -> Vec<Group<'_>> {
    let parts: Vec<&str> = cell.split('`').collect();
    let mut groups: Vec<Group> = Vec::new();
    for around in parts.windows(3).step_by(2) {
        if groups.is_empty() || ![", ", " and "].contains(&around[0]) {
            let before = around[0].split_whitespace().last().unwrap_or("");
            groups.push((before, Vec::new(), ""));
        }
        let (_, names, after) = groups.last_mut().unwrap();
        names.push(around[1]);
        *after = around[2];
    }
    groups
}

fn is_file(word: &str) -> bool {
    word.starts_with(char::is_uppercase)
}

/// The crate and the file in `endpoint Told`, `Kept (..)` or `table; ..`. A file without a crate is one
/// of `meaning`.
fn place(text: &str) -> (&str, &str) {
    let mut words = text.split([' ', ';', ',', '(', '.']);
    match (words.next().unwrap_or(""), words.next().unwrap_or("")) {
        (file, _) if is_file(file) => ("meaning", file),
        (part, file) if is_file(file) => (part, file),
        (part, _) => (part, ""),
    }
}

/// Where the names of a group have to stand, by the head of their column; none if no place is told.
fn path(head: &str, cells: &[&str], (before, _, after): &Group) -> Option<String> {
    let told = before.strip_suffix(':');
    let row = cells[0].trim_matches('`');
    let proofs = |(part, file)| format!("crates/{part}/proofs/{file}.antt");
    Some(match (head, *before) {
        ("Law", _) => proofs(place(&cells[1].replace(':', ""))),
        ("Public functions", _) => format!("crates/{row}/src"),
        ("Definitions", "own") => format!("crates/{row}/specs"),
        ("Definitions", _) if is_file(told?) => format!("crates/meaning/specs/{}.antt", told?),
        ("Definitions", _) => format!("crates/{}/specs", told?),
        ("Definition turned", _) => "crates/meaning/must-fail".to_string(),
        ("Code turned", _) => format!("crates/{}/must-fail", told?),
        ("Held by" | "Tried by", kind) => {
            let (part, file) = place(after.strip_prefix(" in ")?);
            match kind {
                "law" => proofs((part, file)),
                "edit" if part == "second" => "second/wrong".to_string(),
                "edit" => format!("crates/{part}/must-fail"),
                "contract" | "code" => format!("crates/{part}/src"),
                _ if is_file(file) => format!("crates/{part}/specs/{file}.antt"),
                _ if head == "Held by" => format!("crates/{part}/src"),
                _ if part == "kit" => "second/kit/src".to_string(),
                _ => tests(part),
            }
        }
        _ => return None,
    })
}

/// The file of tests with the given name, in whichever package it stands.
fn tests(file: &str) -> String {
    let packages = fs::read_dir(format!("{ROOT}/second")).unwrap();
    let packages = packages.map(|entry| entry.unwrap().file_name().into_string().unwrap());
    let paths = packages.map(|package| format!("second/{package}/tests/suite/{file}.rs"));
    let paths = paths.filter(|path| Path::new(&format!("{ROOT}/{path}")).exists());
    sole(file, paths.collect())
}

/// The only one of some paths. None, or several, make a path at which nothing stands.
fn sole(file: &str, mut paths: Vec<String>) -> String {
    paths.sort();
    match &paths[..] {
        [path] => path.clone(),
        [] => format!("second/*/tests/suite/{file}.rs"),
        several => several.join(" and "),
    }
}

/// Whether a line declares a name: proofs by beginning with it, code with a word before it.
fn declares(line: &str, name: &str, proof: bool) -> bool {
    let words = line.split([' ', '(', '<', ':', ';']);
    let mut words = words.filter(|word| !word.is_empty()).peekable();
    let before = |word: &&str| DECLARING.split(' ').any(|d| d == *word);
    let declaring = proof || words.peek().is_some_and(before);
    declaring && words.find(|word| !before(word)) == Some(name)
}

/// Whether a file declares a name, or one in a folder does or is called so, as edits are. A definition
/// may stand with the laws, and an edit with those that the gate leaves out.
fn stands(name: &str, path: &str) -> bool {
    let name = name.rsplit("::").next().unwrap();
    let path = format!("{ROOT}/{path}");
    let folders = [path.clone(), path.replace("/must-fail", "/tried")];
    let entries = folders.iter().flat_map(fs::read_dir).flatten();
    let entries: Vec<PathBuf> = entries.map(|entry| entry.unwrap().path()).collect();
    let folder = !entries.is_empty();
    let files = if folder {
        entries
    } else {
        vec![path.replace("/specs/", "/proofs/").into(), path.into()]
    };
    files.iter().any(|file| {
        let proof = file.extension().is_some_and(|e| e == "antt");
        let called = folder && file.file_stem().is_some_and(|stem| stem == name);
        let text = fs::read_to_string(file).unwrap_or_default();
        called || text.lines().any(|line| declares(line, name, proof))
    })
}

/// How many names the tables of a document place, and those that do not stand there.
fn placed(document: &str) -> (usize, Vec<String>) {
    let (mut placed, mut missing) = (0, Vec::new());
    let mut heads = Vec::new();
    for line in document.lines() {
        let cells = line.trim_matches('|').split(" | ").map(str::trim);
        let cells: Vec<&str> = cells.collect();
        if !line.starts_with('|') {
            heads.clear();
        } else if heads.is_empty() {
            heads = cells.clone();
        }
        for (head, cell) in heads.iter().zip(&cells) {
            for group in groups(cell) {
                if let Some(path) = path(head, &cells, &group) {
                    placed += group.1.len();
                    let absent = group.1.iter().filter(|name| !stands(name, &path));
                    missing.extend(absent.map(|name| format!("{name} in {path}")));
                }
            }
        }
    }
    (placed, missing)
}

#[test]
fn names_in_the_documents_stand_where_they_are_placed() {
    for (document, least) in [("LAWS.md", 300), ("TRACE.md", 1_000)] {
        let text = fs::read_to_string(format!("{ROOT}/docs/{document}")).unwrap();
        let (placed, missing) = placed(&text);
        assert!(placed > least, "{placed} names in {document}");
        assert!(missing.is_empty(), "{document}: {missing:?}");
    }
}

/// The names of the definitions in some text of specs; types are none, nor are modules.
fn definitions(specs: &str) -> Vec<&str> {
    let declared = specs.lines().filter_map(|line| {
        let words: Vec<&str> = line.split(' ').collect();
        let heads = words.iter().take_while(|word| HEADS.contains(word)).count();
        let public = words[..heads].contains(&"pub");
        public.then(|| words.get(heads).copied())?
    });
    declared.filter(|name| !OTHERS.contains(name)).collect()
}

/// The names that the table of LAWS.md with the head `| Definitions | Held by |` gives for a file.
fn held<'a>(laws: &'a str, file: &str) -> Vec<&'a str> {
    let mut rows = laws.lines();
    rows.find(|line| *line == "| Definitions | Held by |");
    let rows = rows.take_while(|line| line.starts_with('|'));
    let rows = rows.filter_map(|row| row.strip_prefix(&format!("| {file}: ")));
    let cells = rows.filter_map(|row| row.split(" | ").next());
    cells
        .flat_map(|c| c.split('`').skip(1).step_by(2))
        .collect()
}

#[test]
fn each_definition_has_a_law_that_holds_it() {
    let laws = fs::read_to_string(format!("{ROOT}/docs/LAWS.md")).unwrap();
    let files = fs::read_dir(format!("{ROOT}/crates/meaning/specs")).unwrap();
    let mut count = 0;
    for path in files.map(|file| file.unwrap().path()) {
        let specs = fs::read_to_string(&path).unwrap();
        let file = path.file_stem().unwrap().to_str().unwrap();
        let mut defined = definitions(&specs);
        let mut held = held(&laws, file);
        count += defined.len();
        defined.sort();
        held.sort();
        assert_eq!(defined, held, "{file}");
    }
    assert!(count > 150, "{count} definitions");
}

#[test]
fn a_definition_that_no_row_has_is_seen() {
    let specs = "pub mod Wire\npub data Op : Type 0 where\nabbrev pub a : ℕ\na = 1\nunfoldable pub b : ℕ → ℕ\npub record R : Type 0 where\n  pub c : ℕ\npub d {n : ℕ} : ℕ\nunfoldable e : ℕ\n-- pub f : ℕ\n";
    let laws = "| Definitions | Held by |\n|---|---|\n| Octets: `a`, `c` | law `x` in Y |\n| Table: `b` | law `z` in Y |\n\n| Octets: `d` | |";
    assert_eq!(definitions(specs), ["a", "b", "d"]);
    assert_eq!(held(laws, "Octets"), ["a", "c"]);
    assert_eq!(held(laws, "Table"), ["b"]);
}

#[test]
fn a_name_that_stands_nowhere_is_missing() {
    let laws = "| Law | Place |\n| `bench`, `bensh` | Bench |\n| `bench` | endpoint: Told |";
    let trace =
        "| Held by | Tried by |\n| `rows` in Tables | `hex` in kit; edit `none` in delay |\n\
                 | `rows` in Table | `scripts_reach_every_number` in traffic; `hex` in kits |\n\
                 | `rows` in Table | edit `capture_of_4097`, `capture_of_4098` in second |";
    let (count, missing) = placed(&format!("{laws}\n\n{trace}"));
    let expected = "bensh in crates/meaning/proofs/Bench.antt, \
                    bench in crates/endpoint/proofs/Told.antt, \
                    rows in crates/meaning/specs/Tables.antt, none in crates/delay/must-fail, \
                    hex in second/*/tests/suite/kits.rs, capture_of_4098 in second/wrong";
    assert_eq!((count, missing.join(", ").as_str()), (12, expected));
}

#[test]
fn a_file_of_tests_that_stands_in_two_packages_is_none() {
    let path = |package: &str, file: &str| format!("second/{package}/tests/suite/{file}.rs");
    assert_eq!(tests("rules"), path("port", "rules"));
    let both = ["programs", "tools"].map(|package| path(package, "process"));
    assert!(both
        .iter()
        .all(|path| stands("BRIDGE", path) || stands("COMPARE", path)));
    assert_eq!(tests("process"), both.join(" and "));
    assert!(!stands("BRIDGE", &tests("process")));
}
