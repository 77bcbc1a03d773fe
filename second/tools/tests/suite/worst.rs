//! The search for the worst message: what it tries, follows and names, with costs that are made up.

use std::collections::BTreeSet;
use std::io;

use tools::measure::worst::{number, of_one_act, search, words, Mix, ACTS};
use tools::traffic::acts::{Act, Acts, Memory, Name, Scene};

const SUMS: Act = Act::Read(Name::Is(0x8001));
const SELECTIVE: Act = Act::NotServed(6, Name::Is(0x8001), 0);

/// How many operations of an act a message has.
fn count(mix: &Acts, act: Act) -> f64 {
    let counts = mix.iter().filter(|(_, other)| *other == act);
    counts.map(|(count, _)| *count as f64).sum()
}

#[test]
fn messages_of_one_act_are_tried_to_every_limit() {
    let mixes = of_one_act();
    for mix in [
        vec![],
        vec![(1, Act::Commit)],
        vec![(227, Act::Commit)],
        vec![(255, SUMS)],
        vec![(681, SUMS)],
        vec![(680, SUMS), (1, Act::Malformed)],
        vec![(15, Act::Read(Name::Is(0x0061)))],
        vec![(1, Act::After)],
        vec![(255, SELECTIVE)],
        vec![(409, SELECTIVE)],
        vec![(408, SELECTIVE), (1, Act::Malformed)],
    ] {
        assert!(mixes.contains(&mix), "{mix:?}");
    }
    let (mut scene, _) = Scene::new(1, Memory::Full);
    let mut numbers = BTreeSet::new();
    for mix in &mixes {
        let frame = mix.contains(&(1, Act::After));
        let length = scene.message(mix).len();
        assert!(length <= 2_048 || frame && length == 65_535, "{mix:?}");
        numbers.insert(number(mix));
    }
    assert_eq!(numbers, BTreeSet::from([0, 2, 3, 6, 7]));
    // A reply with all kinds of records, and as many commits as the message has room for.
    let (most, kinds) = (174, [Act::Capabilities, Act::SameList]);
    let all = mixes
        .iter()
        .find(|mix| count(mix, Act::Commit) == most as f64);
    assert!(kinds.iter().all(|act| count(all.unwrap(), *act) == 1.0));
    assert_eq!(number(all.unwrap()), 0);
    // Each act stands in a message that is carried out, if it can be.
    for (name, act) in ACTS {
        let of_act = mixes.iter().filter(|mix| count(mix, act) > 0.0);
        let done = of_act.clone().any(|mix| number(mix) == 0);
        let never = [Act::Malformed, Act::After].contains(&act);
        assert_eq!(done, !never, "{name}");
    }
}

#[test]
fn a_search_mixes_what_is_worse_together() {
    // Commits count more than reads by the octet; and only both together count.
    let cost = |mix: &Acts| [3.5 * count(mix, Act::Commit) + count(mix, SUMS), both(mix)];
    fn both(mix: &Acts) -> f64 {
        count(mix, Act::Commit) * count(mix, SUMS)
    }
    let mut calls = 0;
    let found = search(|mix| {
        calls += 1;
        Ok(cost(mix))
    });
    let found = found.unwrap();
    assert_eq!(found.worst[0], [(227, Act::Commit)]);
    // The most of 9 a + 3 b octets is at 113 commits and 341 reads.
    assert!(both(&found.worst[1]) > 0.7 * 113.0 * 341.0, "{found:?}");
    assert_eq!(
        found.costs,
        [0, 1].map(|goal| cost(&found.worst[goal])[goal])
    );
    assert_eq!(found.tried, of_one_act().len() + 220);
    assert!(calls > found.tried && calls < 2 * found.tried);
}

#[test]
fn a_search_does_not_follow_noise() {
    let noisy: Mix = vec![(255, SUMS)];
    let mut first = true;
    let found = search(|mix| {
        let noise = *mix == noisy[..] && first;
        first &= !noise;
        let cost = if noise { 1e6 } else { count(mix, Act::Commit) };
        Ok([cost; 2])
    });
    assert!(!first);
    assert_eq!(found.unwrap().costs, [227.0; 2]);
    // What is hardly worse is noise too, and where nothing can be measured nothing is found.
    let mut more = 1.0;
    let found = search(|_| {
        more += 1e-5;
        Ok([more, 0.0])
    });
    assert_eq!(found.unwrap().worst, [vec![], vec![]]);
    let error = search(|_| Err(io::Error::other("no program")));
    assert_eq!(error.unwrap_err().to_string(), "no program");
}

#[test]
fn messages_are_named_by_what_they_hold() {
    let named = [
        (vec![], "an empty message; refused with 2"),
        (
            vec![(2, Act::List(64)), (120, Act::Commit), (1, SUMS)],
            "2 sets of a list of 64 entries, 120 commits, 1 read of 8001",
        ),
        (vec![(256, SUMS)], "256 reads of 8001; refused with 7"),
        (
            vec![(1, Act::Capabilities), (1, Act::Malformed)],
            "1 get of capabilities, 1 malformed operation; refused with 6",
        ),
        (
            vec![(1, Act::After)],
            "1 frame of 65535 octets; refused with 3",
        ),
        (
            vec![(2, SELECTIVE), (3, Act::NotServed(9, Name::Is(0x8001), 0))],
            "2 selective reads, 3 deletes of an entry",
        ),
        (
            vec![(2, Act::Malformed)],
            "2 malformed operations; refused with 6",
        ),
    ];
    for (mix, name) in named {
        assert_eq!(words(&mix), name);
    }
    let names: BTreeSet<String> = ACTS.iter().map(|(_, act)| words(&[(1, *act)])).collect();
    assert_eq!(names.len(), ACTS.len());
}
