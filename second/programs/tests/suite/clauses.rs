//! The clauses of docs/RULES.md: each has a row in docs/TRACE.md, and each one that is cited exists.

use std::collections::BTreeSet;
use std::fs;
use std::path::{Path, PathBuf};

use kit::files::ROOT;

fn document(path: &str) -> String {
    fs::read_to_string(Path::new(ROOT).join(path)).unwrap()
}

/// A section, or a section and a clause of it.
type Number = (u32, Option<u32>);

/// The number of a clause or of a section at the start of a text, and the text behind it. A number
/// of more parts is none, nor is one that a letter follows.
fn number(text: &str) -> Option<(Number, &str)> {
    let digits = |text: &str| text.chars().take_while(char::is_ascii_digit).count();
    let (whole, rest) = text.split_at(digits(text));
    let section = whole.parse().ok()?;
    let (clause, rest) = match rest.strip_prefix('.') {
        Some(part) if digits(part) > 0 => {
            let (part, rest) = part.split_at(digits(part));
            (Some(part.parse().ok()?), rest)
        }
        _ => (None, rest),
    };
    let further = rest.strip_prefix('.').is_some_and(|part| digits(part) > 0);
    let word = rest.starts_with(|c: char| c.is_alphanumeric());
    (!further && !word).then_some(((section, clause), rest))
}

/// The clauses of the rules in their order: a number in bold begins a line or a row of a table.
fn clauses(rules: &str) -> Vec<(u32, u32)> {
    let mut clauses = Vec::new();
    for line in rules.lines() {
        let begins = line.strip_prefix("| ").unwrap_or(line).strip_prefix("**");
        if let Some(((section, Some(clause)), rest)) = begins.and_then(number) {
            assert!(rest.starts_with("**"), "{line}");
            clauses.push((section, clause));
        }
    }
    clauses
}

/// The numbers in the first column of the tables of docs/TRACE.md.
fn rows(trace: &str) -> BTreeSet<Number> {
    let cells = trace.lines().filter_map(|line| line.strip_prefix("| "));
    cells.filter_map(number).map(|(found, _)| found).collect()
}

/// What is cited behind a word: one number, or several joined by commas, `and` or `to`.
fn cited(text: &str, word: &str) -> BTreeSet<Number> {
    let mut found = BTreeSet::new();
    for part in text.split(word).skip(1) {
        let mut next = number(part);
        while let Some((this, rest)) = next {
            found.insert(this);
            let joined = [", ", " and ", " to "];
            let behind = joined.iter().find_map(|j| rest.strip_prefix(j));
            // A number without a clause that follows one is no citation: it may be any number.
            next = behind.and_then(number).filter(|(n, _)| n.1.is_some());
        }
    }
    found
}

/// Those that are cited and do not exist.
fn unknown(cited: &BTreeSet<Number>, clauses: &[(u32, u32)]) -> Vec<Number> {
    let exists = |n: &&Number| match **n {
        (section, Some(clause)) => clauses.contains(&(section, clause)),
        (section, None) => clauses.iter().any(|known| known.0 == section),
    };
    cited.iter().filter(|n| !exists(n)).copied().collect()
}

/// Those that have no row.
fn untraced(clauses: &[(u32, u32)], rows: &BTreeSet<Number>) -> Vec<(u32, u32)> {
    let absent = |&&(section, clause): &&(u32, u32)| !rows.contains(&(section, Some(clause)));
    clauses.iter().filter(absent).copied().collect()
}

/// Whether a clause follows the one before it: the next of its section, or the first of the next.
fn in_order(clauses: &[(u32, u32)]) -> bool {
    let follows = |a: (u32, u32), b: (u32, u32)| [(a.0, a.1 + 1), (a.0 + 1, 1)].contains(&b);
    clauses.first() == Some(&(1, 1)) && clauses.windows(2).all(|w| follows(w[0], w[1]))
}

/// Every file of the repository as text; what is built and what is hidden is no part of it.
fn files(folder: &Path, found: &mut Vec<(PathBuf, String)>) {
    for entry in fs::read_dir(folder).unwrap() {
        let path = entry.unwrap().path();
        let name = path.file_name().unwrap().to_string_lossy();
        if ["target", "out", ".git"].contains(&&*name) {
            continue;
        }
        if path.is_dir() {
            files(&path, found);
        } else if let Ok(octets) = fs::read(&path) {
            found.push((path, String::from_utf8_lossy(&octets).into_owned()));
        }
    }
}

/// Words that name rules from elsewhere.
fn names_another(text: &str) -> bool {
    text.to_lowercase().contains(concat!("document", " 01"))
}

#[test]
fn clauses_are_numbered_one_after_another() {
    let clauses = clauses(&document("docs/RULES.md"));
    assert!(clauses.len() > 200, "{} clauses", clauses.len());
    assert!(in_order(&clauses), "{clauses:?}");
}

#[test]
fn every_clause_has_a_row() {
    let clauses = clauses(&document("docs/RULES.md"));
    let rows = rows(&document("docs/TRACE.md"));
    assert_eq!(untraced(&clauses, &rows), []);
    assert_eq!(unknown(&rows, &clauses), []);
}

#[test]
fn every_clause_that_is_cited_exists() {
    let rules = document("docs/RULES.md");
    let clauses = clauses(&rules);
    for word in ["clause ", "clauses ", "section ", "sections "] {
        assert_eq!(unknown(&cited(&rules, word), &clauses), [], "{word}");
    }
    let mut all = Vec::new();
    files(Path::new(ROOT), &mut all);
    let mut count = 0;
    for (path, text) in all {
        let cited = cited(&text, "RULES ");
        // Made-up citations stand below.
        if !path.ends_with("suite/clauses.rs") {
            assert_eq!(unknown(&cited, &clauses), [], "{}", path.display());
            count += cited.len();
        }
    }
    assert!(count > 100, "{count} citations");
}

#[test]
fn no_file_names_rules_that_are_not_here() {
    let mut all = Vec::new();
    files(Path::new(ROOT), &mut all);
    assert!(all.len() > 400, "{} files", all.len());
    for (path, text) in all {
        assert!(!names_another(&text), "{}", path.display());
    }
}

#[test]
fn what_is_wrong_is_seen() {
    let rules = "**1.1** One (clause 2.2).\n\n**1.2** Two, **bold**.\n| **2.1** | a row |\n";
    let found = clauses(rules);
    assert_eq!(found, [(1, 1), (1, 2), (2, 1)]);
    assert!(in_order(&found));
    assert!(!in_order(&[(1, 1), (1, 3)]) && !in_order(&[(1, 2)]) && !in_order(&[]));
    assert!(!in_order(&[(1, 1), (1, 1)]) && !in_order(&[(1, 1), (2, 2)]));
    assert_eq!(
        unknown(&cited(rules, "clause "), &found),
        [(2, Some(2))],
        "a clause that the rules themselves cite"
    );

    let trace = "| Clause | Says |\n|---|---|\n| 1.1 | one |\n| 1.1 | again |\n| 3.1 | none |\n";
    assert_eq!(untraced(&found, &rows(trace)), [(1, 2), (2, 1)]);
    assert_eq!(unknown(&rows(trace), &found), [(3, Some(1))]);

    let comment =
        "// RULES 1.1, 1.3 and 2.1 to 2.4, 5 octets; RULES 2 and RULES 7. See docs/RULES.md";
    let expected = [(1, Some(3)), (2, Some(4)), (7, None)];
    assert_eq!(unknown(&cited(comment, "RULES "), &found), expected);
    assert_eq!(
        cited("RULES 1.1.1, RULES 1.1a, RULES x", "RULES "),
        [].into()
    );
    assert_eq!(number("9.2.1 and"), None);
    assert_eq!(number("10. Ten"), Some(((10, None), ". Ten")));

    let named = ["document", " 01, the rules"].concat();
    assert!(names_another(&named) && names_another(&named.to_uppercase()));
    assert!(!names_another("document 1, type 01"));
}
