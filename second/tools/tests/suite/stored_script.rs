//! The stored script of the proved rig, `crates/rig/stdin`, and the lines of it, `stdout`.

use std::collections::{BTreeMap, BTreeSet};
use std::ops::RangeInclusive;

use kit::files::stored;
use kit::{hex, Bench, Reply};
use programs::rig::code;
use tools::traffic::{stream, Kind};

use crate::process::RIG;
use crate::stored::assert_prints;
use crate::traffic::{pieces, play, profiles};

/// What the part by chance follows from, and its instructions.
const SEED: u64 = 39_698;
const RECORDS: u64 = 2_700;

/// The part at the edges, which stands in front.
fn edges() -> Vec<u8> {
    stream(Kind::Edges, 0, u64::MAX)
}

/// An instruction and the line that it is answered with.
pub struct Answered {
    /// The profile of the memory that it finds.
    pub profile: u8,
    pub code: u8,
    pub body: Vec<u8>,
    pub line: String,
}

impl Answered {
    /// Whether it is one of the calls.
    fn is_call(&self) -> bool {
        self.code <= code::EXPIRY || self.is_message() || self.code == code::GATES || self.is_move()
    }

    /// Whether it moves memory between its forms.
    fn is_move(&self) -> bool {
        [code::FORWARD, code::BACK].contains(&self.code)
    }

    /// Whether it is a message, in full or in short.
    fn is_message(&self) -> bool {
        [code::MESSAGE, code::MESSAGE_IN_FULL].contains(&self.code)
    }

    /// The number that a call returned.
    pub fn number(&self) -> u8 {
        self.line.split_once(' ').unwrap().0.parse().unwrap()
    }

    /// The octets that a call has written.
    fn written(&self) -> Vec<u8> {
        hex(self.line.rsplit_once(' ').unwrap().1)
    }

    /// The name of a local value, or the length of a room.
    fn first_two(&self) -> u16 {
        u16::from_be_bytes([self.body[0], self.body[1]])
    }
}

/// The instructions that were answered: all but the last.
pub fn script() -> Vec<Answered> {
    let lines = String::from_utf8(stored("rig", "stdout")).unwrap();
    let lines: Vec<String> = lines.lines().map(String::from).collect();
    let edges = pieces(&edges(), 3).len();
    assert_eq!(lines.len(), edges + RECORDS as usize);
    let (last, lines) = lines.split_last().unwrap();
    assert_eq!(last, "cut");
    let stdin = stored("rig", "stdin");
    let instructions = pieces(&stdin, 3);
    assert!(
        instructions.len() >= lines.len(),
        "{} instructions",
        instructions.len()
    );
    let answered = instructions.into_iter().zip(profiles(&stdin)).zip(lines);
    answered
        .map(|(((head, body), profile), line)| Answered {
            profile,
            code: head[0],
            body,
            line: line.clone(),
        })
        .collect()
}

/// Asserts that each is seen often enough.
pub fn assert_seen(counts: &[(&str, usize, usize)]) {
    for (what, count, least) in counts {
        assert!(count >= least, "{what}: {count}, not {least}");
    }
}

#[test]
fn the_second_rig_prints_the_stored_lines() {
    assert_prints(*RIG, "rig");
}

/// The README has the command line that made it. Where `traffic` changes, both files are made anew.
#[test]
fn the_stored_script_has_the_edges_and_follows_from_its_seed() {
    let script = stored("rig", "stdin");
    assert!(script == [edges(), stream(Kind::Calls, SEED, RECORDS)].concat());
    assert!(script.len() < 1_480_000);
    assert!(stored("rig", "stdout").len() < 3_600_000);
}

#[test]
fn the_part_by_chance_has_every_instruction_and_shows_often() {
    let script = script().split_off(pieces(&edges(), 3).len());
    let of = |code| script.iter().filter(|r| r.code == code).count();
    let calls = script.iter().filter(|r| r.is_call()).count();
    let shown_at_once = script
        .windows(2)
        .filter(|pair| pair[0].is_call() && pair[1].code == code::SHOW_MEMORY)
        .count();
    let rooms = |least: usize| {
        let shown = script.iter().filter(|r| r.code == code::SHOW_ROOM);
        shown.filter(|r| hex(&r.line).len() >= least).count()
    };
    assert_seen(&[
        ("calls", calls, 2_000),
        ("memory shown right after a call", shown_at_once, calls / 6),
        ("made fresh", of(code::MAKE_FRESH), 15),
        ("messages", of(code::MESSAGE), 300),
        ("messages in full", of(code::MESSAGE_IN_FULL), 300),
        ("local values", of(code::LOCAL_VALUE), 300),
        ("builds", of(code::BUILD), 200),
        ("expiries", of(code::EXPIRY), 200),
        ("memories lent", of(code::LEND), 60),
        ("rooms shown", rooms(0), 50),
        ("rooms shown, 1,600 octets or more", rooms(1_600), 20),
        ("rooms shown, 8,192 octets", rooms(8_192), 2),
        ("delays", of(code::DELAY), 30),
        ("gates", of(code::GATES), 250),
        ("moves forward", of(code::FORWARD), 10),
        ("moves back", of(code::BACK), 10),
    ]);
}

/// Every number, with every call that can return it, and no other.
#[test]
fn the_stored_lines_have_every_number_of_every_call() {
    let mut numbers: BTreeMap<u8, BTreeMap<u8, usize>> = BTreeMap::new();
    for instruction in script().iter().filter(|r| r.is_call()) {
        let of = numbers.entry(instruction.code).or_default();
        *of.entry(instruction.number()).or_default() += 1;
        if instruction.code == code::GATES {
            continue;
        }
        let builds = instruction.code == code::BUILD;
        let may_write = builds || instruction.is_message() || instruction.is_move();
        let writes = may_write && instruction.number() == 0;
        assert_eq!(
            writes,
            !instruction.written().is_empty(),
            "{}",
            instruction.line
        );
    }
    let possible: [(u8, &[u8]); 9] = [
        (code::MAKE_FRESH, &[0, 1, 18]),
        (code::MESSAGE, &[0, 1, 2, 3, 4, 5, 6, 7, 8]),
        (code::LOCAL_VALUE, &[0, 1, 12]),
        (code::BUILD, &[0, 1, 9, 10, 11]),
        (code::EXPIRY, &[1, 8, 20, 21]),
        (code::MESSAGE_IN_FULL, &[0, 1, 2, 3, 4, 5, 6, 7, 8]),
        (code::GATES, &[0, 1, 15]),
        (code::FORWARD, &[0, 1, 16]),
        (code::BACK, &[0, 1, 16, 17, 19]),
    ];
    for (code, possible) in possible {
        let seen: Vec<u8> = numbers[&code].keys().copied().collect();
        assert_eq!(seen, possible, "numbers of call {code}");
        let least = if code == code::MAKE_FRESH { 1 } else { 3 };
        let often = numbers[&code].values().all(|count| *count >= least);
        assert!(often, "call {code}: {:?}", numbers[&code]);
    }
}

/// What becomes of notifications, read off the lines.
#[derive(Default)]
struct Notified {
    /// Expiries since a notification was built, while it waits and no memory is lent.
    expiries: Option<usize>,
    /// Names made absent by a local value since memory was lent or made fresh.
    made_absent: BTreeSet<u16>,
    values: usize,
    /// In profile 02 and in profile 03.
    absent: [usize; 2],
    acknowledged: [usize; 5],
    given_up: usize,
}

impl Notified {
    fn take(&mut self, instruction: &Answered) {
        match instruction.code {
            code::LEND | code::MAKE_FRESH => {
                self.expiries = None;
                self.made_absent.clear();
            }
            code::LOCAL_VALUE if instruction.number() == 0 => {
                let name = instruction.first_two();
                self.made_absent.remove(&name);
                if instruction.body.len() == 2 {
                    self.made_absent.insert(name);
                }
            }
            code::BUILD if instruction.number() == 0 => {
                self.built(instruction.profile, &instruction.written())
            }
            code::EXPIRY => self.expired(instruction.number()),
            _ if instruction.is_message() && instruction.written() == [5] => {
                if let Some(expiries) = self.expiries.take() {
                    self.acknowledged[expiries] += 1;
                }
            }
            _ => {}
        }
    }

    /// A notification's contents are those of element 71.
    fn built(&mut self, profile: u8, notification: &[u8]) {
        assert_eq!(notification[0], 3);
        let report = Reply::parse(&[&[2, 0x71], &notification[1..]].concat());
        self.expiries = Some(0);
        self.values += report.values.len();
        for (name, cause) in report.read_errors {
            let [absent, other] = [3, 0x6F].map(|told| cause == told);
            assert!(
                absent != other && other == (profile == 3),
                "name {name:04x}"
            );
            if self.made_absent.contains(&name) {
                self.absent[usize::from(other)] += 1;
            }
        }
    }

    fn expired(&mut self, number: u8) {
        let Some(expiries) = self.expiries else {
            return;
        };
        assert_eq!(number, if expiries < 4 { 20 } else { 21 });
        self.expiries = (expiries < 4).then_some(expiries + 1);
        self.given_up += usize::from(expiries == 4);
    }
}

#[test]
fn the_stored_lines_have_notifications_acknowledged_and_given_up() {
    let mut seen = Notified::default();
    for instruction in script() {
        seen.take(&instruction);
    }
    assert_seen(&[
        ("values reported", seen.values, 100),
        ("made absent, and reported with cause 03", seen.absent[0], 5),
        ("made absent, and reported with cause 6F", seen.absent[1], 5),
        ("given up at the fifth expiry", seen.given_up, 20),
        ("acknowledged at once", seen.acknowledged[0], 5),
        ("acknowledged after one expiry", seen.acknowledged[1], 3),
        ("acknowledged after four expiries", seen.acknowledged[4], 3),
    ]);
}

/// How many names are marked pending.
fn pending(bench: &Bench) -> usize {
    let flags = (0..19).map(|place| bench.memory.get(6 * place + 2));
    flags.filter(|f| f.is_some_and(|f| f & 4 != 0)).count()
}

#[test]
fn the_stored_messages_lie_at_their_edges() {
    let (mut unmarked, mut fits, mut one_short) = (0, 0, 0);
    let mut lengths: BTreeMap<usize, usize> = BTreeMap::new();
    play(&stored("rig", "stdin"), |before, message, room| {
        *lengths.entry(message.len()).or_default() += 1;
        let (number, reply) = before.clone().send_into(message, 8_192);
        if number == 0 && message[0] == 1 {
            fits += usize::from(room == reply.len());
            one_short += usize::from(room + 1 == reply.len());
        }
        let mut after = before.clone();
        after.send_into(message, room);
        // A command marks nothing, so a mark that is gone was cleared by an unsubscribe.
        unmarked += usize::from(pending(&after) < pending(before));
    });
    let long = |length: usize| lengths.get(&length).copied().unwrap_or(0);
    assert_seen(&[
        ("commands that unsubscribe a pending name", unmarked, 5),
        ("rooms as long as the reply", fits, 30),
        ("rooms one octet short", one_short, 30),
        ("empty messages", long(0), 3),
        ("messages of 2,048 octets", long(2_048), 3),
        ("messages of 2,049 octets", long(2_049), 3),
        ("messages that fill their instruction", long(65_533), 1),
    ]);
}

#[test]
fn the_stored_script_lends_memories_that_are_refused() {
    let mut lent: BTreeMap<(usize, bool), usize> = BTreeMap::new();
    for pair in script().windows(2) {
        if pair[0].code == code::LEND && pair[1].is_call() {
            let length = pair[0].body.len();
            assert_eq!(pair[0].line, format!("lent {length}"));
            let taken = pair[1].number() != 1;
            *lent.entry((length, taken)).or_default() += 1;
        }
    }
    let of = |lengths: RangeInclusive<usize>, taken| {
        let counts = lent
            .iter()
            .filter(|((l, t), _)| lengths.contains(l) && *t == taken);
        counts.map(|(_, count)| count).sum()
    };
    assert_seen(&[
        ("shorter by an octet, refused", of(2_100..=2_100, false), 1),
        ("longer by an octet, refused", of(2_102..=2_102, false), 1),
        ("empty, refused", of(0..=0, false), 1),
        ("much shorter, refused", of(1..=2_099, false), 2),
        ("unsound, refused", of(2_101..=2_101, false), 10),
        ("sound, taken", of(2_101..=2_101, true), 20),
    ]);
}

#[test]
fn the_stored_script_has_the_edges_of_rooms_and_delays() {
    let script = script();
    let builds = |room: u16, number: u8| {
        let builds = script.iter().filter(|r| r.code == code::BUILD);
        builds
            .filter(|r| r.first_two() == room && r.number() == number)
            .count()
    };
    let delays = |nanoseconds: u64, octets: &str| {
        let asked = nanoseconds.to_be_bytes();
        let delays = script
            .iter()
            .filter(|r| r.code == code::DELAY && r.body == asked);
        delays.filter(|r| r.line == octets).count()
    };
    assert_seen(&[
        ("builds with a room of 1,599", builds(1_599, 11), 10),
        ("builds with a room of 1,600", builds(1_600, 0), 10),
        ("0 ns", delays(0, "0000000000000000"), 1),
        ("1 ns", delays(1, "0000010000000000"), 1),
        ("2^47 - 1 ns", delays((1 << 47) - 1, "0000ffffffffff7f"), 1),
        ("2^47 ns", delays(1 << 47, "ffffffffffffff7f"), 1),
        ("2^64 - 1 ns", delays(u64::MAX, "ffffffffffffff7f"), 1),
    ]);
}
