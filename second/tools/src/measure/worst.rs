//! The worst message that can be sent: a search among messages to full memory, and its rows.

use std::array;
use std::io;
use std::time::Duration;

use port::{take_message, FRESH};

use super::table::Row;
use super::time::{self, Times, SEED};
use crate::traffic::acts::{Act, Acts, Memory, Name, Scene};
use crate::traffic::dice::Dice;
use crate::traffic::measured::{self, Limit};
use crate::traffic::not_served::{
    DELETE_ENTRY, SELECTIVE_READ, SELECTIVE_SUBSCRIBE, SELECTIVE_UNSUBSCRIBE,
};

/// What a message can be worst in: the time of the measured bridge, and its ratio to the second's.
pub const GOALS: [&str; 2] = ["worst time", "worst ratio"];
/// Messages that are tried for each goal after those of one act.
const ROUNDS: usize = 110;
/// Acts, one after another, that a message has at most: more would hardly be named.
const MOST_ACTS: usize = 8;
/// By this factor a message has to be worse, so that noise is not followed.
const MARGIN: f64 = 1.02;
/// Times shorter than this are noise.
const SHORTEST: Duration = Duration::from_millis(1);
/// Octets of operations in the longest message that is taken.
const MOST_OCTETS: usize = 2_048 - 3;
/// The messages of a try have one octet for so many of COUNT, so that each try takes about as long:
/// some hundredths of a second.
const OCTET_IN: u64 = 2;
/// Octets that a message is counted as having besides its own.
const BESIDE: usize = 32;
/// The messages that are found are measured on so many times those of a try.
const CONFIRMED: u64 = 20;

/// The name of which what is not served is asked: the last of the table.
const LAST: Name = Name::Is(0x8001);
/// Octets of a long value of what is not served: as many as the longest list has.
const LONG: usize = 448;

/// Words with which a name may begin, and which have no plural.
const ADJECTIVES: [&str; 2] = ["selective ", "malformed "];

/// What messages are put together from, each with its name; the first word that has a plural has an
/// s if there are more than one. Names and values are those that take longest of their sort: the
/// last of the table.
pub const ACTS: [(&str, Act); 33] = [
    ("get of capabilities", Act::Capabilities),
    ("read of one octet", Act::Read(Name::Is(0x0060))),
    ("read of 255 octets", Act::Read(Name::Is(0x0061))),
    ("read of a list of 64 entries", Act::Read(Name::Is(0x0006))),
    ("read of 8001", Act::Read(Name::Is(0x8001))),
    ("read of an absent value", Act::Read(Name::Is(0x00A4))),
    ("read of an unlisted name", Act::Read(Name::Is(0xFFFF))),
    ("set of one octet", Act::Set(0x0060, 1, 7)),
    ("set of 255 octets", Act::Set(0x0061, 255, 7)),
    ("set of a list of 36 entries", Act::List(36)),
    ("set of a list of 37 entries", Act::List(37)),
    ("set of a list of 64 entries", Act::List(64)),
    ("set of the list in memory", Act::SameList),
    ("set of a list with a wrong last entry", Act::WrongList),
    ("set of a wrong octet", Act::Set(0x0060, 1, 8)),
    ("set of an unlisted name", Act::Set(0xFFFF, 1, 1)),
    ("set of a value of the port", Act::Set(0x00A4, 2, 0)),
    // After these a commit fails, each time at another condition; a base time only changes the sums.
    ("set of a base time of 0", Act::Set(0x0004, 10, 0)),
    ("set of a list length of 0", Act::Set(0x0005, 4, 0)),
    ("set of a cycle of 1 s", Act::Set(0x0007, 8, 1)),
    ("schedule of 64 entries", Act::Schedule(64)),
    ("commit", Act::Commit),
    ("commit with wrong sums", Act::WrongCommit),
    ("subscribe", Act::Subscribe(Name::Is(0x8001))),
    ("unsubscribe", Act::Unsubscribe(Name::Is(0x8001))),
    ("selective read", Act::NotServed(SELECTIVE_READ, LAST, 0)),
    (
        "selective read with 448 octets",
        Act::NotServed(SELECTIVE_READ, LAST, LONG),
    ),
    (
        "selective subscribe",
        Act::NotServed(SELECTIVE_SUBSCRIBE, LAST, 0),
    ),
    (
        "selective unsubscribe",
        Act::NotServed(SELECTIVE_UNSUBSCRIBE, LAST, 0),
    ),
    ("delete of an entry", Act::NotServed(DELETE_ENTRY, LAST, 0)),
    (
        "delete of an entry with 448 octets",
        Act::NotServed(DELETE_ENTRY, LAST, LONG),
    ),
    ("malformed operation", Act::Malformed),
    ("frame of 65535 octets", Act::After),
];

/// Acts with a record of each kind: names, a value, an error, an update, an error, a long update.
const EACH_KIND: [(usize, Act); 6] = [
    (1, Act::Capabilities),
    (1, Act::Read(Name::Is(0x0060))),
    (1, Act::Read(Name::Is(0x00A4))),
    (1, Act::Set(0x0060, 1, 7)),
    (1, Act::Set(0x0060, 1, 8)),
    (1, Act::SameList),
];

/// Acts that are put together in the search.
pub type Mix = Vec<(usize, Act)>;

/// What a message costs, by goal.
pub type Costs = [f64; GOALS.len()];

/// What a search has found.
#[derive(Debug, Default, PartialEq)]
pub struct Found {
    /// How many messages were tried.
    pub tried: usize,
    /// The worst for each goal.
    pub worst: [Mix; GOALS.len()],
    /// What these cost.
    pub costs: Costs,
}

/// Searches for the messages for which `cost` is highest, goal by goal: first those of one act, then
/// from the worst of these on, exchanging some of its acts for others.
pub fn search(mut cost: impl FnMut(&Acts) -> io::Result<Costs>) -> io::Result<Found> {
    let mut found = Found::default();
    for mix in of_one_act() {
        found.consider(mix, &mut cost)?;
    }
    let mut dice = Dice::new(SEED);
    for goal in 0..GOALS.len() {
        for _ in 0..ROUNDS {
            let mix = changed(&mut dice, &found.worst[goal]);
            found.consider(mix, &mut cost)?;
        }
    }
    Ok(found)
}

impl Found {
    /// Tries a message, and once more if it seems to be worse than others: noise seldom comes twice,
    /// and the lower cost is taken.
    fn consider(
        &mut self,
        mix: Mix,
        cost: &mut impl FnMut(&Acts) -> io::Result<Costs>,
    ) -> io::Result<()> {
        self.tried += 1;
        let first = cost(&mix)?;
        if self.exceeded(first).next().is_none() {
            return Ok(());
        }
        let again = cost(&mix)?;
        let costs = array::from_fn(|goal| first[goal].min(again[goal]));
        let goals: Vec<usize> = self.exceeded(costs).collect();
        for goal in goals {
            self.costs[goal] = costs[goal];
            self.worst[goal] = mix.clone();
        }
        Ok(())
    }

    /// The goals for which a message is worse than all before.
    fn exceeded(&self, costs: Costs) -> impl Iterator<Item = usize> + '_ {
        (0..GOALS.len()).filter(move |goal| costs[*goal] > MARGIN * self.costs[*goal])
    }
}

/// Messages of one act: once; as often as it can be carried out; that with a record of each kind
/// beside it; as often as a message has room for it; and that with a last operation for which all is
/// refused. Also the empty message.
pub fn of_one_act() -> Vec<Mix> {
    let mut mixes = vec![Mix::new()];
    for (_, act) in ACTS {
        let beside = |before: &Acts, count: usize, after: &Acts| -> Mix {
            [before, &[(count, act)], after].concat()
        };
        let carried_out = |before: &Acts| {
            let mut counts = (1..=room(before, act)).rev();
            let count = counts.find(|count| number(&beside(before, *count, &[])) == 0);
            beside(before, count.unwrap_or(1), &[])
        };
        let last = [(1, Act::Malformed)];
        let mut of_act = vec![
            beside(&[], 1, &[]),
            carried_out(&[]),
            beside(&[], room(&[], act), &[]),
            beside(&[], room(&last, act), &last),
            carried_out(&EACH_KIND),
        ];
        of_act.dedup();
        mixes.extend(of_act);
    }
    mixes
}

/// A message in which some operations of one act are exchanged for others.
fn changed(dice: &mut Dice, mix: &Acts) -> Mix {
    loop {
        let mut mix = mix.to_vec();
        if !mix.is_empty() {
            let place = dice.below(mix.len());
            let count = mix[place].0;
            mix[place].0 -= dice.pick(&[1, count.div_ceil(2), count]);
        }
        let (_, act) = dice.pick(&ACTS);
        let place = dice.between(0, mix.len());
        let most = room(&mix, act);
        mix.insert(place, (dice.pick(&[1, most / 2, most]).min(most), act));
        // Half of the time as many as can be carried out, or none.
        if dice.one_in(2) {
            while mix[place].0 > 0 && number(&mix) != 0 {
                mix[place].0 -= 1;
            }
        }
        mix.retain(|(count, _)| *count > 0);
        if (1..=MOST_ACTS).contains(&mix.len()) {
            return mix;
        }
    }
}

/// How many operations more of an act a message has room for.
fn room(mix: &Acts, act: Act) -> usize {
    if act == Act::After {
        return 1;
    }
    let octets = |acts: &Acts| {
        let acts = acts.iter().filter(|(_, act)| *act != Act::After);
        let acts: Mix = acts.copied().collect();
        scene().message(&acts).len().saturating_sub(3)
    };
    MOST_OCTETS.saturating_sub(octets(mix)) / octets(&[(1, act)])
}

fn scene() -> Scene {
    Scene::new(SEED, Memory::Full).0
}

/// The number that a message is answered with on full memory.
pub fn number(mix: &Acts) -> u8 {
    let (mut scene, before) = Scene::new(SEED, Memory::Full);
    let mut memory = FRESH;
    let mut room = [0; 4_096];
    for message in before {
        take_message(&mut memory, &message, &mut room);
    }
    take_message(&mut memory, &scene.message(mix), &mut room).number as u8
}

/// A message in words.
pub fn words(mix: &Acts) -> String {
    let act = |(count, act): &(usize, Act)| {
        let name = ACTS.iter().find(|(_, named)| named == act);
        let name = name.map_or("unnamed act", |(name, _)| name);
        let adjective = ADJECTIVES.iter().find(|word| name.starts_with(*word));
        let noun = adjective.map_or(0, |word| word.len());
        let end = name[noun..].find(' ').map_or(name.len(), |end| noun + end);
        let plural = if *count == 1 { "" } else { "s" };
        format!("{count} {}{plural}{}", &name[..end], &name[end..])
    };
    let mut words: Vec<String> = mix.iter().map(act).collect();
    if mix.is_empty() {
        words.push("an empty message".into());
    }
    match number(mix) {
        0 => words.join(", "),
        number => format!("{}; refused with {number}", words.join(", ")),
    }
}

/// How many messages a try has.
fn messages(mix: &Acts, count: u64) -> u64 {
    let octets = scene().message(mix).len().min(MOST_OCTETS) + BESIDE;
    (count / OCTET_IN / octets as u64).max(1)
}

/// The times for so many messages, after the one that fills memory.
fn measure(programs: &[String; 2], mix: &Acts, messages: u64) -> io::Result<Times> {
    time::measure(programs, |sink| {
        measured::write(Memory::Full, &[mix], SEED, 1 + messages, sink)
    })
}

/// Searches, and measures what was found as every stream is measured.
pub fn rows(programs: &[String; 2], count: u64) -> io::Result<Vec<Row>> {
    // What a program takes to start and to fill memory would count, since a try is short.
    let start = measure(programs, &[], 0)?.medians;
    let found = search(|mix| {
        let messages = messages(mix, count);
        let times = measure(programs, mix, messages)?;
        let [bridge, second] = [0, 1].map(|one| times.medians[one].saturating_sub(start[one]));
        if second < SHORTEST {
            return Ok(Costs::default());
        }
        let [bridge, second] = [bridge, second].map(|time| time.as_secs_f64());
        Ok([bridge / messages as f64, bridge / second])
    })?;
    let rows = GOALS.iter().zip(&found.worst).map(|(goal, mix)| {
        let messages = CONFIRMED * messages(mix, count);
        let times = measure(programs, mix, messages)?;
        let what = format!("{goal} of {} messages tried: {}", found.tried, words(mix));
        Ok(Row::timed(what, Limit::Any, messages, &times))
    });
    rows.collect()
}
