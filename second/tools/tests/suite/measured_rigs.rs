//! The streams for measuring rigs, and the rows of rigs in the table of `measure`.

use std::collections::BTreeMap;

use kit::{Bench, Running};
use tools::traffic::asked::{Asked, ASKED};
use tools::traffic::measured::STREAMS;
use tools::traffic::{stream, words, Kind};

use crate::measure::{assert_timed_on, rows, TOOLS};
use crate::process::{assert_refused, run, text, BRIDGE, MEASURE, RIG, TRAFFIC};
use crate::traffic::{measured, pieces, play_all};

/// Questions of a stream that are looked at.
const COUNT: u64 = 6_400;

/// How often each entry is told, and the memory that is asked.
fn told(stream: &'static Asked) -> (BTreeMap<usize, usize>, Bench) {
    let script = tools::traffic::stream(Kind::Asked(stream), 3, stream.before() + COUNT);
    let (mut entries, mut asked) = (BTreeMap::new(), Bench::fresh());
    play_all(&script, |bench, code, body| {
        if code == 10 {
            let instant = i64::from_be_bytes(body.try_into().unwrap());
            let (_, entry, _) = bench.gates(instant).1.unwrap();
            *entries.entry(entry).or_default() += 1;
            asked = bench.clone();
        } else {
            assert_eq!((code, body[..2] == [16, 0]), (1, true));
        }
    });
    (entries, asked)
}

#[test]
fn every_entry_is_asked_about_equally_often() {
    let (entries, _) = told(Asked::named("gates").unwrap());
    assert_eq!(entries.len(), 64);
    assert!(
        entries.values().all(|count| (60..150).contains(count)),
        "{entries:?}"
    );
    let (entries, _) = told(Asked::named("gates-last").unwrap());
    assert_eq!(entries, BTreeMap::from([(63, COUNT as usize)]));
}

/// As it is for bridges: 64 entries run, and each value that a controller sets is as long as it can be.
#[test]
fn full_memory_is_asked() {
    let first = pieces(&stream(measured("empty"), 3, 1), 2).remove(0).1;
    let mut full = Bench::fresh();
    assert_eq!(full.send(&first).0, 0);
    for stream in &ASKED {
        let (_, asked) = told(stream);
        assert!(asked.memory == full.memory, "{}", stream.word);
        assert_eq!(Running::of(&asked.memory).unwrap().entries.len(), 64);
        assert_eq!(stream.before(), 1);
    }
}

/// Instants lie in each cycle that ends within the range, and all over their entries.
#[test]
fn instants_lie_all_over_the_cycle() {
    let script = stream(Kind::Asked(&ASKED[0]), 1, COUNT);
    let (mut rounds, mut inner) = (BTreeMap::new(), 0);
    play_all(&script, |bench, code, body| {
        if code == 10 {
            let running = Running::of(&bench.memory).unwrap();
            let instant = i128::from(i64::from_be_bytes(body.try_into().unwrap()));
            *rounds.entry(instant / running.cycle).or_insert(0) += 1;
            inner += usize::from(!running.begins().contains(&(instant % running.cycle)));
        }
    });
    assert_eq!(rounds.keys().copied().collect::<Vec<_>>(), [0, 1]);
    assert!(rounds.values().all(|count| *count > 2_000), "{rounds:?}");
    assert!(inner > 6_000, "{inner}");
}

#[test]
fn traffic_takes_the_words_of_rigs() {
    for row in &ASKED {
        let output = run(TRAFFIC, &[row.word, "9", "3"], &[]);
        assert!(output.stdout == stream(Kind::Asked(row), 9, 3));
        assert_eq!(pieces(&output.stdout, 3).len(), 3);
        assert_ne!(output.stdout, stream(Kind::Asked(row), 8, 3));
        assert!(words().contains(row.word));
        assert!(stream(Kind::Asked(row), 1, 0).is_empty());
    }
    assert_refused(TRAFFIC, &["gates-first", "1", "1"]);
    // A million of them are no large file.
    let octets = stream(Kind::Asked(&ASKED[0]), 1, 1_000).len();
    assert!(octets < 16_000, "{octets} octets");
}

#[test]
fn rigs_are_timed_on_what_is_asked() {
    let words = ["--rig", *RIG, *RIG, *BRIDGE, *BRIDGE, "300"];
    let output = run(MEASURE, &words, &[]);
    let timed = rows(&output);
    assert_eq!(timed.len(), STREAMS.len() + ASKED.len());
    for (row, stream) in timed[STREAMS.len()..].iter().zip(&ASKED) {
        let what = format!("time of rig to the second's: {}", stream.what);
        assert_eq!((row[0], row[2]), (&*what, "2.00"));
        assert_timed_on(*row, 300, "calls");
    }
    // What is not compiled is not timed.
    let script = format!("{TOOLS}/silent");
    let words = ["--rig", &script, *RIG, *BRIDGE, *BRIDGE, "1"];
    let output = run(MEASURE, &words, &[]);
    let why = "not measured: the rig is not a compiled program";
    for row in &rows(&output)[STREAMS.len()..] {
        assert_eq!(row[1..], ["-", "2.00", "", why]);
    }
}

/// A rig that ends at an instruction that it does not know has not done the work, and one that reads
/// nothing even less.
#[test]
fn a_rig_that_does_not_read_all_is_found_out() {
    let words = ["--rig", "/bin/true", *RIG, *BRIDGE, *BRIDGE, "20"];
    let output = run(MEASURE, &words, &[]);
    assert_eq!(output.status.code(), Some(2));
    let said = text(&output.stderr);
    assert!(said.contains("\"/bin/true\" has read 0 of "), "{said}");
}
