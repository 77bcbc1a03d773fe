//! The streams for measuring: each message of theirs does what its row says.

use std::collections::{BTreeMap, BTreeSet};
use std::slice;

use kit::{Bench, Reply};
use tools::traffic::asked::ASKED;
use tools::traffic::measured::{Stream, STREAMS};
use tools::traffic::{stream, words, Kind};

use crate::process::{assert_refused, run, text, TRAFFIC};
use crate::traffic::{measured, pieces};

/// Frames of a stream that are looked at.
const COUNT: u64 = 40;

/// The messages of a stream, without those that prepare memory, and the memory before them.
fn repeated(word: &str) -> (Bench, Vec<Vec<u8>>) {
    let Kind::Measured(row) = measured(word) else {
        panic!("{word} is not for measuring");
    };
    let frames = pieces(&stream(measured(word), 3, row.before() + COUNT), 2);
    let mut messages = frames.into_iter().map(|(_, message)| message);
    let mut bench = Bench::fresh();
    for message in messages.by_ref().take(row.before() as usize) {
        assert_eq!(bench.send(&message).0, 0, "{word}");
    }
    let messages: Vec<_> = messages.collect();
    assert_eq!(messages.len() as u64, COUNT);
    (bench, messages)
}

/// The replies to a stream whose messages are all carried out.
fn replies(word: &str) -> Vec<Reply> {
    let (mut bench, messages) = repeated(word);
    let answered = messages.iter().map(|message| {
        let (number, reply) = bench.send(message);
        assert_eq!(number, 0, "{word}");
        Reply::parse(&reply)
    });
    answered.collect()
}

/// How many records of reads, of sets that succeeded, and of sets that failed a reply has.
fn counts(reply: &Reply) -> [usize; 3] {
    [
        reply.values.len() + reply.read_errors.len(),
        reply.updates.len() + reply.long_updates.len(),
        reply.update_errors.len(),
    ]
}

#[test]
fn each_stream_is_answered_as_its_row_says() {
    let expected = [
        ("read", [1, 0, 0]),
        ("reads-16", [16, 0, 0]),
        ("reads-255", [255, 0, 0]),
        ("full-read", [1, 0, 0]),
        ("full-reads-16", [16, 0, 0]),
        ("full-reads-255", [255, 0, 0]),
        ("set", [0, 1, 0]),
        ("set-read", [1, 1, 0]),
        ("sums", [1, 0, 0]),
        ("sums-16", [16, 0, 0]),
        ("sums-255", [255, 0, 0]),
        ("schedule-8", [1, 5, 0]),
        ("schedule-64", [1, 5, 0]),
        ("commit", [0, 1, 0]),
        ("wrong-commit", [0, 0, 1]),
        ("commits-226", [0, 226, 0]),
        ("commits-150", [2, 151, 1]),
        ("lists-4", [0, 4, 0]),
        ("subscribes-680", [0, 0, 0]),
        ("selective-reads-255", [255, 0, 0]),
        ("deletes-255", [0, 0, 255]),
        ("selective-subscribes-409", [0, 0, 0]),
    ];
    for (word, expected) in expected {
        for reply in replies(word) {
            assert_eq!(counts(&reply), expected, "{word}");
            assert_eq!(
                reply.capabilities.is_some(),
                word == "commits-150",
                "{word}"
            );
        }
    }
    // Messages of several kinds by turns, and empty ones, have tests of their own.
    let all = STREAMS.iter().map(|stream| stream.word);
    let tested = expected.iter().map(|(word, _)| *word);
    let tested: BTreeSet<&str> = tested.chain(["mixed", "empty", "commits"]).collect();
    assert_eq!(all.clone().collect::<BTreeSet<_>>(), tested);
    assert_eq!(all.count(), tested.len(), "a word stands twice");
}

#[test]
fn long_messages_are_taken() {
    let lengths = [
        ("reads-255", 3 + 255 * 3),
        ("commits-226", 3 + 226 * 9),
        ("subscribes-680", 3 + 680 * 3),
        ("lists-4", 3 + 4 * (5 + 448)),
        ("selective-reads-255", 3 + 255 * 5),
        ("deletes-255", 3 + 255 * 5),
        ("selective-subscribes-409", 3 + 409 * 5),
        ("commits-150", 3 + 1 + 2 * 3 + 150 * 9 + 6 + (5 + 448)),
    ];
    for (word, length) in lengths {
        let (_, messages) = repeated(word);
        assert!(
            messages.iter().all(|message| message.len() == length),
            "{word}"
        );
        assert!((500..=2_048).contains(&length), "{word}");
    }
}

#[test]
fn reads_go_round_the_table() {
    let names = |reply: &Reply| {
        let values = reply.values.iter().map(|(name, _)| *name);
        values
            .chain(reply.read_errors.iter().map(|(name, _)| *name))
            .collect::<Vec<u16>>()
    };
    let listed: BTreeSet<u16> = replies("full-reads-16").iter().flat_map(names).collect();
    assert_eq!(listed.len(), 19);
    let first: BTreeSet<u16> = replies("full-read").iter().flat_map(names).collect();
    assert!(first.len() > 10, "{first:?}");
    for (word, values) in [("full-reads-255", 9), ("reads-255", 2)] {
        let mut often: BTreeMap<u16, usize> = BTreeMap::new();
        let replies = replies(word);
        for name in names(&replies[0]) {
            *often.entry(name).or_default() += 1;
        }
        // All but the three names whose values are long.
        let short: BTreeSet<u16> = &listed - &BTreeSet::from([0x0006, 0x0042, 0x0061]);
        assert_eq!(often.keys().copied().collect::<BTreeSet<_>>(), short);
        assert!(often.values().all(|times| [15, 16].contains(times)));
        let present: BTreeSet<u16> = replies[0].values.iter().map(|(name, _)| *name).collect();
        assert_eq!(present.len(), values, "{word}");
    }
}

#[test]
fn commits_are_right_or_wrong() {
    let right = replies("commit");
    let sums = &replies("sums")[0].values;
    assert!(sums[0].0 == 0x8001 && sums[0].1.len() == 4);
    assert!(right.iter().all(|reply| reply.updates == *sums));
    for reply in replies("wrong-commit") {
        assert_eq!(reply.update_errors, [(0x8001, 2)]);
    }
    for reply in replies("commits-226") {
        assert!(reply.updates.iter().all(|update| *update == sums[0]));
    }
}

#[test]
fn commits_are_right_and_wrong_by_turns() {
    let sums = &replies("sums")[0].values;
    let right = replies("commit");
    let wrong = replies("wrong-commit");
    for (turn, reply) in replies("commits").iter().enumerate() {
        if turn % 2 == 0 {
            assert_eq!((counts(reply), &reply.updates), ([0, 1, 0], sums));
            assert_eq!(*reply, right[turn]);
        } else {
            assert_eq!(counts(reply), [0, 0, 1]);
            assert_eq!(reply.update_errors, [(0x8001, 2)]);
            assert_eq!(*reply, wrong[turn]);
        }
    }
}

#[test]
fn a_record_of_each_kind_stands_beside_the_commits() {
    for reply in replies("commits-150") {
        assert_eq!(reply.values, [(0x0003, reply.values[0].1.clone())]);
        assert_eq!(reply.read_errors, [(0x0001, 3)]);
        assert_eq!(reply.updates.len(), 150);
        assert!(reply.updates.iter().all(|(name, _)| *name == 0x8001));
        assert_eq!(reply.update_errors, [(0x0003, 2)]);
        assert_eq!(reply.long_updates.len(), 1);
        assert_eq!(reply.long_updates[0].1.len(), 448);
    }
}

/// All round the table, and each with the cause of what is not served.
#[test]
fn selective_reads_and_deletes_fail() {
    let errors: [(&str, fn(&Reply) -> &Vec<(u16, u8)>); 2] = [
        ("selective-reads-255", |reply| &reply.read_errors),
        ("deletes-255", |reply| &reply.update_errors),
    ];
    for (word, errors) in errors {
        for reply in replies(word) {
            let names: BTreeSet<u16> = errors(&reply).iter().map(|(name, _)| *name).collect();
            assert_eq!(names.len(), 19, "{word}");
            assert!(errors(&reply).iter().all(|(_, cause)| *cause == 0x6F));
        }
    }
}

#[test]
fn schedules_change_with_each_message() {
    for (word, entries) in [("schedule-8", 8), ("schedule-64", 64)] {
        let mut seen = BTreeSet::new();
        for reply in replies(word) {
            let lists = reply.updates.iter().chain(&reply.long_updates);
            let list = lists.clone().find(|(name, _)| *name == 0x0006).unwrap();
            assert_eq!(list.1.len(), 7 * entries);
            let commit = reply.updates.last().unwrap();
            assert_eq!(reply.values, slice::from_ref(commit));
            seen.insert(commit.1.clone());
        }
        assert!(seen.len() > 30, "{} different sums", seen.len());
    }
    let lists = replies("lists-4");
    assert!(lists.iter().all(|reply| reply.long_updates.len() == 4));
    assert_ne!(lists[0].long_updates[0], lists[1].long_updates[0]);
}

#[test]
fn no_stream_of_a_measurement_is_too_large() {
    for row in &STREAMS {
        let octets = stream(Kind::Measured(row), 1, 200).len() as u64;
        let all = octets / 200 * 1_000_000 / row.one_in;
        assert!(all < 256_000_000, "{} has {all} octets", row.word);
        assert!(row.limit.ratio() <= 2.0);
        assert!(row.before() <= 1);
    }
}

#[test]
fn the_readme_has_each_stream_and_its_limit() {
    let readme = include_str!("../../../README.md");
    let cells = |line: &'static str| line.split('|').map(str::trim).collect::<Vec<_>>();
    let mut told = BTreeMap::new();
    for row in readme.lines().map(cells).filter(|cells| cells.len() == 5) {
        let words = row[1].split(", ").filter_map(|word| {
            let word = word.strip_prefix('`')?;
            word.strip_suffix('`')
        });
        told.extend(words.map(|word| (word, row[3].to_string())));
    }
    let limit = |row: &'static Stream| (row.word, format!("{:.2}", row.limit.ratio()));
    let asked = ASKED.iter().map(|row| (row.word, "2.00".to_string()));
    let limits: BTreeMap<_, _> = STREAMS.iter().map(limit).chain(asked).collect();
    assert_eq!(told, limits);
}

#[test]
fn traffic_takes_the_words_of_all_streams() {
    for row in &STREAMS {
        let output = run(TRAFFIC, &[row.word, "9", "3"], &[]);
        assert!(output.stdout == stream(Kind::Measured(row), 9, 3));
        assert_eq!(pieces(&output.stdout, 2).len(), 3);
        assert!(words().contains(row.word));
    }
    assert_refused(TRAFFIC, &["reads-17", "1", "1"]);
    let refused = run(TRAFFIC, &["reads-17", "1", "1"], &[]);
    let why = format!("traffic: KIND is {}, not \"reads-17\"\n", words());
    assert_eq!(text(&refused.stderr), why);
}
