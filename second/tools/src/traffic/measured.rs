//! The streams for measuring: one table of them, and the loop that writes one.

use std::io::{self, Write};

use super::acts::{Act, Acts, Memory, Name, Scene};
use super::not_served::{DELETE_ENTRY, SELECTIVE_READ, SELECTIVE_SUBSCRIBE};
use super::pieces::frame;

/// A stream: after the frames that prepare memory, the same sort of messages again and again.
#[derive(Debug, PartialEq, Eq)]
pub struct Stream {
    /// Its word for `traffic`.
    pub word: &'static str,
    /// What its messages are.
    pub what: &'static str,
    /// How long the measured bridge may take for it.
    pub limit: Limit,
    /// A measurement of COUNT messages has one in so many of it: with a million, the second bridge takes
    /// about a third of a second for each stream, and none has more than 256 MB.
    pub one_in: u64,
    memory: Memory,
    /// The messages, by turns.
    turns: &'static [&'static Acts],
}

/// What a stream's ratio is held to.
#[derive(Clone, Copy, Debug, PartialEq, Eq)]
pub enum Limit {
    /// That of empty messages.
    Empty,
    /// That of reads and sets.
    ReadsAndSets,
    /// That of single commits and of whole schedules.
    Schedules,
    /// That of every stream.
    Any,
}

impl Limit {
    /// The highest ratio of the measured bridge's time to the second's.
    pub fn ratio(self) -> f64 {
        match self {
            Limit::Empty => 1.0,
            Limit::ReadsAndSets => 1.2,
            Limit::Schedules => 1.4,
            Limit::Any => 2.0,
        }
    }
}

const READ: Act = Act::Read(Name::Next);
/// Of the names whose values are short, on empty memory too: on full memory 255 reads round the whole
/// table would have a reply of some 14,000 octets, and be refused.
const READ_SHORT: Act = Act::Read(Name::NextShort);
const READ_SET: Act = Act::Read(Name::Same);
const READ_SUMS: Act = Act::Read(Name::Is(0x8001));

/// All of them.
pub static STREAMS: [Stream; 25] = [
    Stream {
        word: "mixed",
        what: "by turns 1 read, 16 reads, set and read",
        limit: Limit::ReadsAndSets,
        one_in: 1,
        memory: Memory::Empty,
        turns: &[
            &[(1, READ)],
            &[(16, READ)],
            &[(1, Act::SetAny), (1, READ_SET)],
        ],
    },
    Stream {
        word: "empty",
        what: "empty messages on full memory",
        limit: Limit::Empty,
        one_in: 1,
        memory: Memory::Full,
        turns: &[&[]],
    },
    Stream {
        word: "read",
        what: "1 read on empty memory",
        limit: Limit::ReadsAndSets,
        one_in: 1,
        memory: Memory::Empty,
        turns: &[&[(1, READ)]],
    },
    Stream {
        word: "reads-16",
        what: "16 reads on empty memory",
        limit: Limit::ReadsAndSets,
        one_in: 2,
        memory: Memory::Empty,
        turns: &[&[(16, READ)]],
    },
    Stream {
        word: "reads-255",
        what: "255 reads on empty memory",
        limit: Limit::ReadsAndSets,
        one_in: 25,
        memory: Memory::Empty,
        turns: &[&[(255, READ_SHORT)]],
    },
    Stream {
        word: "full-read",
        what: "1 read on full memory",
        limit: Limit::ReadsAndSets,
        one_in: 1,
        memory: Memory::Full,
        turns: &[&[(1, READ)]],
    },
    Stream {
        word: "full-reads-16",
        what: "16 reads on full memory",
        limit: Limit::ReadsAndSets,
        one_in: 4,
        memory: Memory::Full,
        turns: &[&[(16, READ)]],
    },
    Stream {
        word: "full-reads-255",
        what: "255 reads on full memory",
        limit: Limit::ReadsAndSets,
        one_in: 25,
        memory: Memory::Full,
        turns: &[&[(255, READ_SHORT)]],
    },
    Stream {
        word: "set",
        what: "1 set",
        limit: Limit::ReadsAndSets,
        one_in: 2,
        memory: Memory::Full,
        turns: &[&[(1, Act::SetAny)]],
    },
    Stream {
        word: "set-read",
        what: "set and read",
        limit: Limit::ReadsAndSets,
        one_in: 2,
        memory: Memory::Full,
        turns: &[&[(1, Act::SetAny), (1, READ_SET)]],
    },
    Stream {
        word: "sums",
        what: "1 read of 8001",
        limit: Limit::ReadsAndSets,
        one_in: 1,
        memory: Memory::Full,
        turns: &[&[(1, READ_SUMS)]],
    },
    Stream {
        word: "sums-16",
        what: "16 reads of 8001",
        limit: Limit::ReadsAndSets,
        one_in: 2,
        memory: Memory::Full,
        turns: &[&[(16, READ_SUMS)]],
    },
    Stream {
        word: "sums-255",
        what: "255 reads of 8001",
        limit: Limit::ReadsAndSets,
        one_in: 25,
        memory: Memory::Full,
        turns: &[&[(255, READ_SUMS)]],
    },
    Stream {
        word: "schedule-8",
        what: "schedule of 8 entries set, committed and read",
        limit: Limit::Schedules,
        one_in: 2,
        memory: Memory::Empty,
        turns: &[&[(1, Act::Schedule(8)), (1, READ_SUMS)]],
    },
    Stream {
        word: "schedule-64",
        what: "schedule of 64 entries set, committed and read",
        limit: Limit::Schedules,
        one_in: 4,
        memory: Memory::Empty,
        turns: &[&[(1, Act::Schedule(64)), (1, READ_SUMS)]],
    },
    Stream {
        word: "commit",
        what: "1 commit, right",
        limit: Limit::Schedules,
        one_in: 1,
        memory: Memory::Full,
        turns: &[&[(1, Act::Commit)]],
    },
    Stream {
        word: "wrong-commit",
        what: "1 commit, wrong",
        limit: Limit::Schedules,
        one_in: 1,
        memory: Memory::Full,
        turns: &[&[(1, Act::WrongCommit)]],
    },
    Stream {
        word: "commits",
        what: "by turns 1 commit, right and wrong",
        limit: Limit::Schedules,
        one_in: 1,
        memory: Memory::Full,
        turns: &[&[(1, Act::Commit)], &[(1, Act::WrongCommit)]],
    },
    Stream {
        word: "commits-226",
        what: "226 commits",
        limit: Limit::Any,
        one_in: 100,
        memory: Memory::Full,
        turns: &[&[(226, Act::Commit)]],
    },
    Stream {
        word: "commits-150",
        what: "150 commits with a record of each kind",
        limit: Limit::Any,
        one_in: 100,
        memory: Memory::Full,
        // In the order of the kinds: names, a value, an error, an update, an error, a long update.
        turns: &[&[
            (1, Act::Capabilities),
            (1, Act::Read(Name::Is(0x0003))),
            (1, Act::Read(Name::Is(0x0001))),
            (150, Act::Commit),
            (1, Act::Set(0x0003, 1, 2)),
            (1, Act::SameList),
        ]],
    },
    Stream {
        word: "lists-4",
        what: "a list of 64 entries set four times",
        limit: Limit::ReadsAndSets,
        one_in: 10,
        memory: Memory::Full,
        turns: &[&[(4, Act::List(64))]],
    },
    Stream {
        word: "subscribes-680",
        what: "680 subscribes",
        limit: Limit::Any,
        one_in: 40,
        memory: Memory::Full,
        turns: &[&[(680, Act::Subscribe(Name::Next))]],
    },
    Stream {
        word: "selective-reads-255",
        what: "255 selective reads",
        limit: Limit::ReadsAndSets,
        one_in: 25,
        memory: Memory::Full,
        turns: &[&[(255, Act::NotServed(SELECTIVE_READ, Name::Next, 0))]],
    },
    Stream {
        word: "deletes-255",
        what: "255 deletes of entries",
        limit: Limit::ReadsAndSets,
        one_in: 25,
        memory: Memory::Full,
        turns: &[&[(255, Act::NotServed(DELETE_ENTRY, Name::Next, 0))]],
    },
    Stream {
        word: "selective-subscribes-409",
        what: "409 selective subscribes",
        limit: Limit::Any,
        one_in: 30,
        memory: Memory::Full,
        turns: &[&[(409, Act::NotServed(SELECTIVE_SUBSCRIBE, Name::Next, 0))]],
    },
];

impl Stream {
    /// The stream of a word.
    pub fn named(word: &str) -> Option<&'static Stream> {
        STREAMS.iter().find(|stream| stream.word == word)
    }

    /// How many of its frames prepare memory.
    pub fn before(&self) -> u64 {
        Scene::new(0, self.memory).1.len() as u64
    }

    /// Writes the first `count` frames that belong to `seed`.
    pub fn write<W: Write>(&self, seed: u64, count: u64, sink: &mut W) -> io::Result<()> {
        write(self.memory, self.turns, seed, count, sink)
    }
}

/// Writes `count` frames: those that prepare memory, then messages by turns.
pub fn write<W: Write>(
    memory: Memory,
    turns: &[&Acts],
    seed: u64,
    count: u64,
    sink: &mut W,
) -> io::Result<()> {
    let (mut scene, before) = Scene::new(seed, memory);
    let mut before = before.into_iter();
    let mut turns = turns.iter().cycle();
    for _ in 0..count {
        let prepares = before.next();
        let message = prepares.or_else(|| turns.next().map(|acts| scene.message(acts)));
        sink.write_all(&frame(&message.unwrap_or_default()))?;
    }
    Ok(())
}
