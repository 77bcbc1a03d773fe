//! What `traffic` is made of: every number and every kind of message with useful frequency.

use std::collections::BTreeMap;

use kit::{Bench, Reply};
use tools::traffic::measured::{Stream, STREAMS};
use tools::traffic::{self, stream, Kind};

const SCRIPTS: u64 = 250;
const RECORDS: u64 = 200;

/// The kind of a stream for measuring.
pub fn measured(word: &str) -> Kind {
    Kind::Measured(Stream::named(word).unwrap())
}

/// The pieces of a stream, the last cut one excepted.
pub fn pieces(stream: &[u8], head: usize) -> Vec<(Vec<u8>, Vec<u8>)> {
    let mut rest = stream;
    let mut pieces = Vec::new();
    while let Some((front, after)) = rest.split_at_checked(head) {
        let length = usize::from(front[head - 2]) * 256 + usize::from(front[head - 1]);
        let Some((body, after)) = after.split_at_checked(length) else {
            break;
        };
        pieces.push((front.to_vec(), body.to_vec()));
        rest = after;
    }
    pieces
}

/// The lines of the rig for a script.
pub fn printed(script: &[u8]) -> Vec<String> {
    let mut output = Vec::new();
    programs::rig::run(script, &mut output).unwrap();
    String::from_utf8(output)
        .unwrap()
        .lines()
        .map(String::from)
        .collect()
}

#[test]
fn the_edges_are_whole_and_the_same_for_each_seed() {
    let edges = stream(Kind::Edges, 1, u64::MAX);
    assert!(edges == stream(Kind::Edges, 2, u64::MAX));
    assert!(edges.starts_with(&stream(Kind::Edges, 1, 700)));
    let lines = printed(&edges);
    assert_eq!(lines.len(), pieces(&edges, 3).len());
    assert!(lines.iter().all(|line| line != "cut"));
    // What follows finds fresh memory.
    assert!(edges.ends_with(&[0, 0, 0]) && lines.last().unwrap() == "0 -");
    let mut numbers: BTreeMap<&str, usize> = BTreeMap::new();
    for line in &lines {
        *numbers.entry(line.split(' ').next().unwrap()).or_default() += 1;
    }
    for number in (0..=12).chain(15..=21) {
        let seen = numbers.get(&*number.to_string()).copied();
        assert!(seen.is_some(), "number {number}");
    }
}

#[test]
fn scripts_reach_every_number() {
    let mut reached: BTreeMap<u8, usize> = BTreeMap::new();
    let mut cut = 0;
    for seed in 1..=SCRIPTS {
        let lines = printed(&stream(Kind::Script, seed, RECORDS));
        assert_eq!(lines.len() as u64, RECORDS, "seed {seed}");
        assert!(lines[..lines.len() - 1].iter().all(|line| line != "cut"));
        cut += usize::from(lines.last().unwrap() == "cut");
        for line in lines {
            if let Some(Ok(number)) = line.split_once(' ').map(|(number, _)| number.parse()) {
                *reached.entry(number).or_default() += 1;
            }
        }
    }
    let numbers: Vec<u8> = reached.keys().copied().collect();
    let wanted: Vec<u8> = (0..=12).chain(15..=21).collect();
    assert_eq!(numbers, wanted);
    assert!(reached.values().all(|count| *count >= 40), "{reached:?}");
    assert!((20..90).contains(&cut), "{cut} scripts end cut");
}

#[test]
fn instructions_show_memory_and_room_often() {
    let codes = codes(Kind::Script);
    assert!(codes.iter().all(|count| *count > 300), "{codes:?}");
    assert!(codes[6] > 5_000 && codes[7] > 5_000, "{codes:?}");
}

/// How often each code occurs in some scripts.
pub fn codes(kind: Kind) -> [usize; 13] {
    let mut codes = [0; 13];
    for seed in 1..=SCRIPTS {
        for (head, _) in pieces(&stream(kind, seed, RECORDS), 3) {
            if let Some(count) = codes.get_mut(usize::from(head[0])) {
                *count += 1;
            }
        }
    }
    codes
}

/// The stored script of the rig has them.
#[test]
fn calls_are_made_more_often_than_shown() {
    let codes = codes(Kind::Calls);
    let calls: usize = codes[..5].iter().sum::<usize>() + codes[9..].iter().sum::<usize>();
    assert!(calls as u64 > SCRIPTS * RECORDS * 7 / 10, "{codes:?}");
    assert!(codes.iter().all(|count| *count > 250), "{codes:?}");
    assert!((calls / 6..calls / 4).contains(&codes[6]), "{codes:?}");
    assert!(codes[7] < codes[6] / 5, "{codes:?}");
}

/// What the frames of a stream have shown.
#[derive(Default, Debug)]
struct Seen {
    messages: usize,
    carried_out: usize,
    commits: usize,
    refused_commits: usize,
    counts: BTreeMap<usize, usize>,
    lists: BTreeMap<usize, usize>,
    lengths: BTreeMap<usize, usize>,
    replies: BTreeMap<usize, usize>,
}

impl Seen {
    fn take(&mut self, bench: &mut Bench, message: &[u8]) {
        let (number, reply) = bench.send(message);
        self.messages += 1;
        *self.lengths.entry(message.len()).or_default() += 1;
        if number != 0 || reply == [5] {
            return;
        }
        self.carried_out += 1;
        *self.replies.entry(reply.len()).or_default() += 1;
        let reply = Reply::parse(&reply);
        self.commits += reply
            .updates
            .iter()
            .filter(|(name, _)| *name == 0x8001)
            .count();
        self.refused_commits += reply
            .update_errors
            .iter()
            .filter(|e| **e == (0x8001, 2))
            .count();
        for count in [reply.values.len(), reply.updates.len()] {
            *self.counts.entry(count).or_default() += 1;
        }
        for (_, value) in reply
            .updates
            .iter()
            .chain(&reply.long_updates)
            .filter(|u| u.0 == 6)
        {
            *self.lists.entry(value.len() / 7).or_default() += 1;
        }
    }
}

fn often(counts: &BTreeMap<usize, usize>, wanted: &[usize], least: usize) {
    for number in wanted {
        let count = counts.get(number).copied().unwrap_or(0);
        assert!(count >= least, "{number} seen {count} times");
    }
}

#[test]
fn frames_have_every_kind_of_message() {
    let mut seen = Seen::default();
    for seed in 1..=100 {
        let mut bench = Bench::fresh();
        for (_, message) in pieces(&stream(Kind::Frames, seed, 200), 2) {
            seen.take(&mut bench, &message);
        }
    }
    assert!(
        seen.carried_out * 3 > seen.messages * 2,
        "{} carried out",
        seen.carried_out
    );
    assert!(seen.commits > 800, "{} commits", seen.commits);
    assert!(
        seen.refused_commits > 1_000,
        "{} refused commits",
        seen.refused_commits
    );
    often(&seen.lists, &[0, 1, 36, 37, 64], 100);
    often(&seen.lengths, &[0, 1, 2, 2_048, 2_049, 65_535], 50);
    often(&seen.counts, &[255], 100);
    often(&seen.replies, &[4_095, 4_096], 50);
}

/// The operations and the reply of each frame of a stream whose frames are all carried out.
fn replies(stream: &[u8]) -> Vec<(Vec<u8>, Reply)> {
    let mut bench = Bench::fresh();
    let messages = pieces(stream, 2).into_iter();
    let answered = messages.map(|(_, message)| {
        let (number, reply) = bench.send(&message);
        assert_eq!(number, 0, "message {message:02x?}");
        (message[3..].to_vec(), Reply::parse(&reply))
    });
    answered.collect()
}

#[test]
fn mixed_frames_read_and_set_by_turns() {
    let replies = replies(&stream(measured("mixed"), 7, 3_000));
    assert_eq!(replies.len(), 3_000);
    let mut set = BTreeMap::new();
    for (turn, (operations, reply)) in replies.iter().enumerate() {
        let reads = reply.values.len() + reply.read_errors.len();
        let updates: Vec<_> = reply.updates.iter().chain(&reply.long_updates).collect();
        assert!(reply.update_errors.is_empty());
        match turn % 3 {
            0 => assert_eq!((operations.len(), reads, updates.len()), (3, 1, 0)),
            1 => assert_eq!((operations.len(), reads, updates.len()), (48, 16, 0)),
            _ => {
                assert_eq!(updates, [&reply.values[0]]);
                assert_eq!(operations.len(), 5 + updates[0].1.len() + 3);
                *set.entry(updates[0].0).or_insert(0) += 1;
            }
        }
    }
    // Every value that a controller sets, but for the commit.
    let names: Vec<u16> = set.keys().copied().collect();
    assert_eq!(names, [3, 4, 5, 6, 7, 0x40, 0x41, 0x42, 0x60, 0x61]);
    assert!(set.values().all(|count| *count > 50), "{set:?}");
    let read = replies
        .iter()
        .map(|(_, reply)| reply.values.len())
        .sum::<usize>();
    assert!(read > 9_000, "{read} values read");
}

#[test]
fn empty_frames_follow_one_that_fills_memory() {
    let stream = stream(measured("empty"), 7, 1_000);
    let filling = pieces(&stream, 2).remove(0).1;
    let (first, rest) = stream.split_at(2 + filling.len());
    assert_eq!(rest, vec![0; 2 * 999]);
    let (_, reply) = replies(first).remove(0);
    let lengths: BTreeMap<u16, usize> = reply
        .updates
        .iter()
        .chain(&reply.long_updates)
        .map(|(name, value)| (*name, value.len()))
        .collect();
    let full = [
        (0x0003, 1),
        (0x0004, 10),
        (0x0005, 4),
        (0x0006, 448),
        (0x0007, 8),
        (0x0040, 1),
        (0x0041, 1),
        (0x0042, 255),
        (0x0060, 1),
        (0x0061, 255),
        (0x8001, 4),
    ];
    assert_eq!(lengths, BTreeMap::from(full));
    assert!(reply.update_errors.is_empty());
    for kind in STREAMS.iter().map(Kind::Measured) {
        assert!(traffic::stream(kind, 1, 0).is_empty());
    }
}

/// Plays a script on a bench and shows each instruction, with its body, to `watch` before it is done.
pub fn play_all(script: &[u8], mut watch: impl FnMut(&Bench, u8, &[u8])) {
    let mut bench = Bench::fresh();
    let number = |body: &[u8]| u16::from_be_bytes([body[0], body[1]]);
    for (head, body) in pieces(script, 3) {
        watch(&bench, head[0], &body);
        match (head[0], body.len()) {
            (0, 0..=1) => drop(bench.make_fresh_of(body.first().copied().unwrap_or(2))),
            (1 | 9, 2..) => drop(bench.send_into(&body[2..], number(&body).into())),
            (2, 2..) => drop(bench.local(number(&body), &body[2..])),
            (3, 2) => drop(bench.build_into(number(&body).into())),
            (4, 0) => drop(bench.expire()),
            (5, 0..=2_200) => bench = Bench::lend(&body),
            _ => {}
        }
    }
}

/// The profile of the memory that each instruction of a script finds; 02 where it has none.
pub fn profiles(script: &[u8]) -> Vec<u8> {
    let mut profiles = Vec::new();
    play_all(script, |bench, _, _| profiles.push(profile(bench)));
    profiles
}

/// The profile of memory; 02 where it has none.
pub fn profile(bench: &Bench) -> u8 {
    bench.first.filter(|first| *first == 3).unwrap_or(2)
}

/// Plays a script on a bench and shows each message, with its room, to `watch` before it is sent.
pub fn play(script: &[u8], mut watch: impl FnMut(&Bench, &[u8], usize)) {
    play_all(script, |bench, code, body| {
        if let (1 | 9, [high, low, message @ ..]) = (code, body) {
            watch(bench, message, u16::from_be_bytes([*high, *low]).into());
        }
    });
}

#[test]
fn rooms_lie_around_the_length_of_the_reply() {
    let mut distances: BTreeMap<i64, usize> = BTreeMap::new();
    for seed in 1..=50 {
        play(
            &stream(Kind::Script, seed, RECORDS),
            |bench, message, room| {
                let (_, reply) = bench.clone().send_into(message, 8_192);
                *distances
                    .entry(room as i64 - reply.len() as i64)
                    .or_default() += 1;
            },
        );
    }
    for distance in -2..=2 {
        let count = distances.get(&distance).copied().unwrap_or(0);
        assert!(count >= 50, "{count} rooms at distance {distance}");
    }
}

#[test]
fn most_commands_of_a_script_are_carried_out() {
    let (mut commands, mut carried_out) = (0, 0);
    for seed in 1..=SCRIPTS {
        play(
            &stream(Kind::Script, seed, RECORDS),
            |bench, message, room| {
                if bench.is_sound() && message.first() == Some(&1) {
                    commands += 1;
                    carried_out += usize::from(bench.clone().send_into(message, room).0 == 0);
                }
            },
        );
    }
    assert!(
        carried_out * 5 > commands * 3,
        "{carried_out} of {commands}"
    );
}

/// A stream is the same on every machine; this pins one of each kind (FNV-1a, 64 bits).
#[test]
fn streams_follow_from_their_seed_alone() {
    let hash = |octets: &[u8], start: u64| {
        let step =
            |hash: u64, octet: &u8| (hash ^ u64::from(*octet)).wrapping_mul(0x0100_0000_01B3);
        octets.iter().fold(start, step)
    };
    let start = 0xCBF2_9CE4_8422_2325;
    for (kind, pinned) in [
        (Kind::Frames, 0xDD63_22F3_081F_F74C),
        (measured("mixed"), 0x8F2D_1544_4C08_A106),
        (measured("empty"), 0xD944_AA8A_A327_8099),
        (Kind::Script, 0x4744_AE5C_8CFF_ECD0),
        (Kind::Calls, 0xB312_795E_73B8_CD55),
        (Kind::Captures, 0xFB6D_AA13_FA5D_87AE),
    ] {
        let [first, second] = [1, 2].map(|seed| stream(kind, seed, 1_000));
        assert_ne!(first, second, "{kind:?}");
        assert_eq!(hash(&first, start), pinned, "{kind:?}");
    }
    let kinds = STREAMS.iter().map(Kind::Measured);
    let all = kinds.fold(start, |so_far, kind| hash(&stream(kind, 1, 100), so_far));
    assert_eq!(all, 0x3EAE_315B_3BBD_A65A);
}
