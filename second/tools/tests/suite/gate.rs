//! The gate's lines, as `measure` reads them.

use tools::measure::gate::Gate;

/// What a gate prints that has proved a library and a program and tried three edits, with other
/// lines around.
pub const LOG: &str = "\
test result: ok. 135 passed; 0 failed; 0 ignored; 0 measured; 0 filtered out; finished in 2.08s
== octets
fn octets::fill: proved
logic=proved functions=9 sum=064da1ca440f63e7
rt: octets proved
rt: octets: trying its must-fail edits (2)
axioms libc: libc::read, libc::write (2 of the 50 declared)
rt: bridge proved
== bridge: its tests
rt: bridge: its tests are proved
rt: must-fail octets/high_last.edit: refused, as it must be: ./proofs/put16/Answers.antt:86:5: error: no
rt: must-fail octets/one_more.edit: refused, as it must be
rt: must-fail bridge/proved.edit: refused, as it must be (only by a limit of the prover): ./proofs/serve/Answers.antt:23:28: error: no
rt: bridge ran, and wrote what its file stdout has
rt: bridge ran (built by Rattle's own compiler), and wrote what its file stdout has
test result: ok. 1 passed; 0 failed; 0 ignored; 0 filtered out
rt: bridge: its tests passed
rt: ok; handles allowed: none; must-fail edits: 3 refused, 1 of them only by a limit; every proof and must-fail edit was done in this run
5 passed, 0 failed

real\t1m30.500s
user\t2m5.743s
sys\t0m34.754s
";

#[test]
fn what_was_done_is_counted() {
    let expected = Gate {
        crates: 2,
        tests: 1,
        edits: 3,
        part: None,
        whole: Some(90.5),
    };
    assert_eq!(Gate::read(LOG), Ok(expected));
    let told = "2 crates proved, 1 of them with tests, and 3 edits refused";
    assert_eq!(Gate::read(LOG).unwrap().to_string(), told);
}

#[test]
fn the_whole_time_is_what_time_told() {
    let whole = |line: &str| Gate::read(&LOG.replace("real\t1m30.500s", line)).map(|g| g.whole);
    assert_eq!(whole("real 511.43"), Ok(Some(511.43)));
    assert_eq!(whole("real\t10m0.000s"), Ok(Some(600.0)));
    assert_eq!(whole(""), Ok(None));
    for line in [
        "real",
        "real soon",
        "real\tm1s",
        "real -1",
        "real NaN",
        "real inf",
        "unreal 5",
    ] {
        assert_eq!(whole(line), Ok(None), "{line}");
    }
}

#[test]
fn logs_of_something_else_are_refused() {
    let refused = |log: &str| Gate::read(log).unwrap_err();
    let no_end = "it has no line 'N passed, 0 failed'";
    assert_eq!(refused(""), no_end);
    assert_eq!(refused(&LOG.replace("5 passed, 0", "4 passed, 1")), no_end);
    assert_eq!(refused(&LOG.replace("5 passed, 0 failed", "")), no_end);
    let no_ok = "it has no line 'rt: ok'";
    assert_eq!(refused(&LOG.replace("rt: ok", "rt: FAILED")), no_ok);
    let fewer = "it says that 5 passed, and has the lines of 4";
    for (old, new) in [
        ("rt: octets proved", "rt: octets NOT PROVED"),
        ("rt: octets proved", "rt: octets: its tests are proved"),
        ("rt: octets proved", "rt: proved"),
        (
            "one_more.edit: refused, as it must be",
            "one_more.edit: NOT REFUSED: it is still proved",
        ),
        (
            "one_more.edit: refused, as it must be",
            "one_more.edit: BAD EDIT: it changes nothing",
        ),
        ("rt: bridge proved", "bridge proved"),
    ] {
        assert!(LOG.contains(old), "{old}");
        assert_eq!(refused(&LOG.replace(old, new)), fewer, "{new}");
    }
    let twice = "it says that 5 passed, and has the lines of 10";
    assert_eq!(refused(&[LOG, LOG].concat()), twice);
}

/// What the line `rt: ok` says of what was done, where all was, and where only some of it was.
const ALL: &str = "every proof and must-fail edit was done in this run";
pub const PART: &str =
    "1 of the 3 proofs (of crates and of their tests) and 0 of the 3 must-fail edits";

/// A log of a run that took a crate, its tests and all edits from an earlier one.
pub fn in_part() -> String {
    let kept = "octets is kept: an earlier run on this machine proved the same files";
    let told = format!("done in this run: {PART}; the others are kept from earlier runs");
    let log = LOG.replace("octets proved", kept).replace(ALL, &told);
    log.replace("rt: bridge: its tests are proved\n", "")
}

#[test]
fn what_an_earlier_run_did_is_told() {
    let gate = Gate::read(&in_part()).unwrap();
    assert_eq!((gate.crates, gate.tests, gate.edits), (2, 1, 3));
    assert_eq!(gate.part.as_deref(), Some(PART));
    let untold = in_part().replace("done in this run", "done");
    let why = "its line 'rt: ok' does not tell what was done";
    assert_eq!(Gate::read(&untold).unwrap_err(), why);
}

#[test]
fn bad_edits_are_refused() {
    for log in [LOG.to_string(), in_part()] {
        for told in [ALL, "done in this run"] {
            let bad = log.replace(&format!("; {told}"), &format!(", 1 bad; {told}"));
            let refused = Gate::read(&bad).map_err(|why| why == "it says that edits are bad");
            assert_eq!(refused.is_err(), bad != log);
            assert_ne!(refused, Err(false));
        }
    }
}
