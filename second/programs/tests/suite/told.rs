//! The examples of the documents are run. Each block of a document is marked: `console` has commands
//! and what they print, `rust` quotes the proved code, `text` is a picture.
//!
//! In a `console` block a line `$ command` is followed by exactly what the command prints on standard
//! output; two blanks and `#` start a remark there. A command that ends in `\` goes on in the next
//! line. The commands of a document run in order, in one `bash` that starts at the root, and each has
//! to end with status 0: an example of a failure ends in `; echo $?`. Before a `rust` block the last
//! line names its file in backticks.

use std::path::{Path, PathBuf};
use std::{env, fs, iter};

use kit::files::ROOT;

use crate::place::Place;

/// The documents whose examples are run.
const DOCUMENTS: &[&str] = &["README.md", "docs/HOST.md"];

/// A block: the line that it starts at, its mark, the last line of text before it, its lines.
struct Block<'a> {
    at: usize,
    mark: &'a str,
    before: &'a str,
    lines: Vec<&'a str>,
}

/// The blocks of a document, or what is wrong with one.
fn blocks(document: &str) -> Result<Vec<Block<'_>>, String> {
    let (mut blocks, mut open, mut before) = (Vec::new(), None::<Block>, "");
    for (at, line) in (1..).zip(document.lines()) {
        let fence = line.trim_start().starts_with("```") || line.trim_start().starts_with("~~~");
        match (&mut open, line.strip_prefix("```")) {
            (Some(_), Some("")) => blocks.extend(open.take()),
            (Some(block), _) => block.lines.push(line),
            (None, Some(mark)) => {
                let lines = Vec::new();
                open = Some(Block {
                    at,
                    mark,
                    before,
                    lines,
                });
            }
            (None, None) if fence || line.starts_with("    ") || line.starts_with('\t') => {
                return Err(format!("line {at}: a block without a mark"));
            }
            (None, None) if !line.is_empty() => before = line,
            (None, None) => {}
        }
    }
    match open {
        Some(block) => Err(format!("line {}: the block does not end", block.at)),
        None => Ok(blocks),
    }
}

/// A command of an example, the line that it stands in, and what it prints.
#[derive(Debug, PartialEq)]
struct Example {
    at: usize,
    command: String,
    prints: String,
}

fn examples(block: &Block) -> Result<Vec<Example>, String> {
    let mut examples: Vec<Example> = Vec::new();
    for (at, line) in (block.at + 1..).zip(&block.lines) {
        let last = examples.last_mut();
        if let Some(command) = line.strip_prefix("$ ") {
            let (command, prints) = (command.to_string(), String::new());
            examples.push(Example {
                at,
                command,
                prints,
            });
        } else if let Some(last) = last {
            if last.prints.is_empty() && last.command.ends_with('\\') {
                last.command += &format!("\n{line}");
            } else {
                last.prints += line.split("  #").next().unwrap().trim_end();
                last.prints += "\n";
            }
        } else {
            return Err(format!("line {at}: output without a command"));
        }
    }
    match examples.is_empty() {
        true => Err(format!("line {}: no command", block.at)),
        false => Ok(examples),
    }
}

/// Whether the lines of a block stand one after another in the file that is named before it.
fn quoted(block: &Block) -> Result<(), String> {
    let at = block.at;
    let named = block.before.split('`').skip(1).step_by(2);
    let file = named.filter(|name| name.starts_with("crates/")).last();
    let file = file.ok_or(format!(
        "line {at}: the line before names no file of crates/"
    ))?;
    let code = fs::read_to_string(format!("{ROOT}/{file}")).map_err(|e| format!("{file}: {e}"))?;
    let code: Vec<&str> = code.lines().map(str::trim_start).collect();
    let lines: Vec<&str> = block.lines.iter().map(|line| line.trim_start()).collect();
    let stands = !lines.is_empty() && code.windows(lines.len()).any(|part| part == lines);
    stands
        .then_some(())
        .ok_or(format!("line {at}: this does not stand in {file}"))
}

/// The examples of a document, all of whose blocks are as they should be.
fn checked(document: &str) -> Result<Vec<Example>, String> {
    let mut found = Vec::new();
    for block in blocks(document)? {
        match block.mark {
            "console" => found.extend(examples(&block)?),
            "rust" => quoted(&block)?,
            "text" => {}
            mark => return Err(format!("line {}: a block with the mark '{mark}'", block.at)),
        }
    }
    match found.is_empty() {
        true => Err("no example".to_string()),
        false => Ok(found),
    }
}

/// What is in a folder of the repository but for what is built there.
fn parts(folder: &str) -> Vec<PathBuf> {
    let entries = fs::read_dir(format!("{ROOT}/{folder}")).unwrap();
    let left_out = [".git", "target", "second", "crates", "out"];
    let entries = entries.map(|entry| entry.unwrap().path());
    let kept = |path: &PathBuf| !left_out.iter().any(|name| path.ends_with(name));
    entries.filter(kept).collect()
}

/// A copy of the repository but for what is built in it.
fn whole() -> Place {
    let place = Place::with(&parts(""));
    for folder in parts("crates") {
        let name = folder.file_name().unwrap().to_str().unwrap();
        let folder = format!("crates/{name}");
        place.copy(&parts(&folder), &folder);
    }
    place
}

/// Runs examples; what is wrong with the first that is.
fn run(place: &Place, examples: &[Example]) -> Result<(), String> {
    let mut script = String::new();
    for (index, example) in examples.iter().enumerate() {
        let (command, file) = (&example.command, format!("\"$KIT/{index}\""));
        script += &format!("{{ {command}\n}} >{file}; echo $? >>{file}\n");
    }
    // The tools of this machine, but no toolchain of it.
    let path = env::var_os("PATH").unwrap();
    let path = iter::once(place.kit("bin")).chain(env::split_paths(&path));
    let mut bash = place.command(&script);
    bash.env("PATH", env::join_paths(path).unwrap());
    bash.output().unwrap();
    for (index, example) in examples.iter().enumerate() {
        let printed = fs::read_to_string(place.kit(&index.to_string())).unwrap_or_default();
        if printed != format!("{}0\n", example.prints) {
            let Example { at, command, .. } = example;
            return Err(format!(
                "line {at}: '{command}' printed, with its status:\n{printed}"
            ));
        }
    }
    Ok(())
}

#[test]
fn examples_print_what_the_documents_tell() {
    for document in DOCUMENTS {
        let text = fs::read_to_string(Path::new(ROOT).join(document)).unwrap();
        let examples = checked(&text).unwrap_or_else(|why| panic!("{document}, {why}"));
        let run = run(&whole(), &examples);
        run.unwrap_or_else(|why| panic!("{document}, {why}"));
    }
}

#[test]
fn what_is_no_example_is_told() {
    let example = "```console\n$ printf 'a\\nb\\n'\na  # first\nb\n$ cd docs && \\\n  ls LAWS.md\nLAWS.md\n$ ls TRACE.md\nTRACE.md\n```\n";
    let code = "```rust\nfn main(rt: HostRuntime) {\nlet mut bridge = Bridge {\nmemory: [0u8; endpoint::MEMORY_LENGTH],\n```\n";
    let place = "In `crates/bridge/src/main.rt`:\n";
    let examples = checked(&format!("# A\n\n{example}\n{place}\n{code}")).unwrap();
    assert_eq!(examples[1].command, "cd docs && \\\n  ls LAWS.md");
    assert_eq!(
        examples.iter().map(|e| e.at).collect::<Vec<_>>(),
        [4, 7, 10]
    );
    let copy = Place::with(&[Path::new(ROOT).join("docs")]);
    assert_eq!(run(&copy, &examples), Ok(()));
    for (command, prints) in [("echo a", "b\n"), ("echo a; false", "a\n"), ("echo a", "")] {
        let wrong = Example {
            at: 3,
            command: command.into(),
            prints: prints.into(),
        };
        assert!(run(&copy, &[wrong])
            .unwrap_err()
            .starts_with("line 3: 'echo a"));
    }
    for (document, why) in [
        ("# Nothing\n", "no example"),
        ("```text\na\n```\n", "no example"),
        ("```\na\n```\n", "line 1: a block with the mark ''"),
        ("```sh\n$ a\n```\n", "line 1: a block with the mark 'sh'"),
        ("a\n\n    b\n", "line 3: a block without a mark"),
        ("a\n\n\tb\n", "line 3: a block without a mark"),
        ("1. a\n   ```console\n", "line 2: a block without a mark"),
        ("~~~console\n", "line 1: a block without a mark"),
        ("```console\n$ a\n", "line 1: the block does not end"),
        ("```console\na\n```\n", "line 2: output without a command"),
        ("```console\n```\n", "line 1: no command"),
        (code, "line 1: the line before names no file of crates/"),
        (
            &format!("{place}{}", code.replace("[0u8", "[1u8")),
            "line 2: this does not stand in crates/bridge/src/main.rt",
        ),
        (
            &format!("{place}{}", code.replace("let", "\nlet")),
            "line 2: this does not stand in crates/bridge/src/main.rt",
        ),
    ] {
        assert_eq!(checked(document).unwrap_err(), why, "{document:?}");
    }
}
