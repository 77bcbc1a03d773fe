//! The samples: each `samples/NAME.hex`, turned to octets, gives the lines of `samples/NAME.out`, and so
//! does each `samples/NAME.txt` as it is.

use std::fs;
use std::path::{Path, PathBuf};

use kit::files::{frames, sample, ROOT};
use kit::hex;

use crate::process::{lines, BRIDGE, DESK, RIG};

/// Paths of the samples that have a file with the given ending, without it.
fn samples(ending: &str) -> Vec<PathBuf> {
    let entries = fs::read_dir(format!("{ROOT}/samples")).unwrap();
    let paths = entries.map(|entry| entry.unwrap().path());
    let mut found: Vec<PathBuf> = paths
        .filter(|path| path.extension().is_some_and(|e| e == ending))
        .map(|path| path.with_extension(""))
        .collect();
    found.sort();
    found
}

fn text(sample: &Path, ending: &str) -> String {
    fs::read_to_string(sample.with_extension(ending)).unwrap()
}

/// The lines that a sample's comments promise.
fn promised(sample: &str) -> Vec<&str> {
    let lines = sample.lines();
    lines.filter_map(|l| l.strip_prefix("# prints: ")).collect()
}

/// The program that a sample is for, by the command in its comments.
fn program(sample: &Path, ending: &str) -> &'static str {
    let name = sample.file_name().unwrap().to_str().unwrap();
    let source = text(sample, ending);
    let told = |program: &str| {
        source.contains(&format!("# Run it:  ./{program} samples/{name}.{ending}\n"))
    };
    match (told("bridge"), told("rig"), told("desk"), ending) {
        (true, false, false, "hex") => BRIDGE,
        (false, true, false, "hex") => RIG,
        (false, false, true, "txt") => DESK,
        _ => panic!("{sample:?} tells no program"),
    }
}

#[test]
fn samples_give_their_lines() {
    let mut all = Vec::new();
    for (ending, least) in [("hex", 3), ("txt", 1)] {
        let samples = samples(ending);
        assert!(samples.len() >= least, "{samples:?}");
        for sample in &samples {
            assert_lines(sample, ending);
        }
        all.extend(samples);
    }
    all.sort();
    assert_eq!(all, samples("out"));
}

/// Asserts that a sample gives the lines that are stored beside it, and that its comments promise.
fn assert_lines(sample: &Path, ending: &str) {
    let source = text(sample, ending);
    let input = match ending {
        "hex" => frames(&source),
        _ => source.clone().into_bytes(),
    };
    let printed = lines(program(sample, ending), &input);
    let stored = text(sample, "out");
    assert!(stored.ends_with('\n'), "{sample:?}");
    assert_eq!(printed, stored.lines().collect::<Vec<_>>(), "{sample:?}");
    assert_eq!(printed, promised(&source), "{sample:?}");
}

#[test]
fn the_first_sample_is_the_example_of_the_rules() {
    let sample = sample("three-frames", "hex");
    assert_eq!(frames(&sample), hex("0003010003 0006010003020003 0000"));
}
