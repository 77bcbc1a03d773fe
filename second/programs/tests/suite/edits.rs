//! What `./check` makes of edits, over a toolchain that stands in: those that are bad, the wrong
//! ports, and those that are tried if they are asked for.

use std::fs;

use crate::check::{gate, parted, LAST};
use crate::place::Place;

/// What is said of one bad edit.
const BAD: &str = "check: 1 must-fail edits are bad, and show nothing of a contract; \
                   what was printed stands further up\n";

#[test]
fn a_bad_edit_fails() {
    let place = Place::fresh();
    let ok = "rt: ok; handles allowed: none; must-fail edits: 101 refused";
    let all = "; every proof and must-fail edit was done in this run\n";
    let some = "; done in this run: 4 of the 5 proofs (of crates and of their tests); the others are kept\n";
    let none =
        "check: 'rt ci' has no line 'rt: ok', so whether it could make all edits is not known; \
                what was printed stands further up\n";
    for (told, last) in [
        (format!("{ok}{all}"), ""),
        (format!("{ok}, 3 of them only by a limit{some}"), ""),
        (format!("{ok}, 0 bad{all}"), ""),
        (format!("{ok}, 1 bad{all}"), BAD),
        (format!("{ok}, 1 bad\n"), BAD),
        (format!("{ok}, 3 of them only by a limit, 1 bad{some}"), BAD),
        (
            format!("{ok}, 21 bad{some}"),
            &BAD.replace("1 must", "21 must"),
        ),
        ("rt: said: ok, 1 bad\n".into(), none),
    ] {
        fs::write(place.kit("ok"), &told).unwrap();
        let (status, out, _) = place.shell("./check");
        assert_eq!(status, i32::from(!last.is_empty()), "{told}");
        assert!(out.ends_with(&format!("{LAST}{last}")), "{out}");
    }
}

/// Stored runs that are those of the programs here, and a second port of two lines.
fn stored_runs(place: &Place) {
    let (status, ..) = place.shell(
        "mkdir -p second/port/src second/wrong second/programs/src second/tools second/kit
         printf 'right\\nof the other\\n' >second/port/src/lib.rs; : >second/Cargo.toml
         for name in bridge rig desk; do
           printf '\\0\\0\\0' >crates/$name/stdin
           \"$KIT/second/$name\" <crates/$name/stdin >crates/$name/stdout
         done",
    );
    assert_eq!(status, 0);
}

fn edit(place: &Place, name: &str, pairs: &str) {
    let path = place.root().join("second/wrong").join(name);
    let text = format!("# A wrong port.\nfile: port/src/lib.rs\n{pairs}");
    fs::write(path.with_extension("edit"), text).unwrap();
}

#[test]
fn a_wrong_port_must_be_seen() {
    let place = Place::fresh();
    stored_runs(&place);
    edit(&place, "a", "old: right\nnew: wrong & all\n");
    edit(&place, "b", "old: other\nnew: wrong\nold: right\nnew:\n");
    let seen = "wrong: a.edit: seen by bridge\nwrong: b.edit: seen by bridge\n";
    let last = "2 wrong ports, all seen\n";
    place.assert_shell("scripts/wrong", 0, &format!("{seen}{last}"), "");
    for (pairs, why) in [
        (
            "old: other\nnew: another\n",
            "NOT SEEN: all programs print what is stored",
        ),
        (
            "old: left\nnew: wrong\n",
            "BAD EDIT: 'left' is not in port/src/lib.rs",
        ),
        (
            "old: t\nnew: wrong\n",
            "BAD EDIT: 't' is in port/src/lib.rs more than once",
        ),
        ("old: right\n", "BAD EDIT: it changes nothing"),
        (
            "new: wrong\n",
            "BAD EDIT: no file or no text is named to be changed",
        ),
        (
            "old: right\nnew: broken\n",
            "BAD EDIT: cannot be built: error: it is broken",
        ),
    ] {
        edit(&place, "c", pairs);
        let last = "3 wrong ports, 1 not seen: c.edit\n";
        let printed = format!("{seen}wrong: c.edit: {why}\n{last}");
        place.assert_shell("scripts/wrong", 1, &printed, "");
    }
}

#[test]
fn stored_runs_that_are_not_the_programs_show_nothing() {
    let place = Place::fresh();
    stored_runs(&place);
    let told =
        "wrong: without an edit: rig: the stored runs are not those of the second programs\n";
    place.assert_shell("echo >>crates/rig/stdout; scripts/wrong", 1, told, "");
}

#[test]
fn all_edits_are_tried_if_they_are_asked_for() {
    let place = Place::fresh();
    for edit in ["low/must-fail/a", "low/tried/b", "mid/tried/c"] {
        let file = place.root().join("crates").join(edit);
        fs::create_dir_all(file.parent().unwrap()).unwrap();
        fs::write(file.with_extension("edit"), "").unwrap();
    }
    let first = gate(&["low/must-fail/a"]);
    let (status, out, err) = place.shell("./check");
    assert_eq!((status, err.as_str()), (0, ""));
    assert!(out.ends_with(LAST), "{out}");
    assert_eq!(parted(&out).0, first);
    stored_runs(&place);
    edit(&place, "a", "old: right\nnew: wrong\n");
    let others = gate(&["low/must-fail/b", "mid/must-fail/c"]);
    let wrong = "wrong: a.edit: seen by bridge\n1 wrong ports, all seen\n";
    let (status, out, err) = place.shell("./check --all");
    assert_eq!((status, err.as_str()), (0, ""));
    assert!(
        out.ends_with(&format!("{LAST}{others}{LAST}{wrong}")),
        "{out}"
    );
    assert_eq!(parted(&out).0, format!("{first}{others}"));
    let edit = "printf %s word >crates/mid/tried/c.edit; ./check --all";
    for (word, last) in [
        (
            "proved",
            "rt: FAILED: crates/mid/must-fail/c.edit\n2 passed, 1 failed\n".into(),
        ),
        ("bad", format!("{LAST}{BAD}")),
    ] {
        let (status, out, _) = place.shell(&edit.replace("word", word));
        assert_eq!(status, 1);
        assert!(
            out.contains(LAST) && parted(&out).0.starts_with(&first) && out.ends_with(&last),
            "{out}"
        );
    }
    for words in ["--al", "--all --all", "-h"] {
        let usage = "check: usage: ./check [--all]\n";
        place.assert_shell(&format!("./check {words}"), 2, "", usage);
    }
}
