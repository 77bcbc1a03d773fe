//! Messages for measuring: the acts they are made of, and the memory that they are sent to.

use port::table::{Rule, SetBy, COMMIT, COUNT, PARTS, TABLE};

use super::dice::Dice;
use super::operations::Operations;
use super::schedules::{self, Values};
use super::values;

/// Entries of the longest list.
const MOST_ENTRIES: usize = 64;
/// Longest value that is short: so many octets leave room for 255 of them in a reply.
const SHORT: usize = 10;
/// Longest message that a frame can hold.
const LONGEST: usize = 65_535;
/// A code that no operation has.
const UNKNOWN: u8 = 0x0A;

/// Which name an operation has. The first of a message that is drawn from the table is any of it.
#[derive(Clone, Copy, Debug, PartialEq, Eq)]
pub enum Name {
    /// This one.
    Is(u16),
    /// The next one round the table.
    Next,
    /// The next one round the table whose value is short, or absent.
    NextShort,
    /// That of the operation before.
    Same,
}

/// What a message does.
#[derive(Clone, Copy, Debug, PartialEq, Eq)]
pub enum Act {
    /// A get capabilities.
    Capabilities,
    /// A read.
    Read(Name),
    /// A set of any name that a controller sets, but for the commit, to any value that is permitted.
    SetAny,
    /// A set of a name to so many octets, each of them this one.
    Set(u16, usize, u8),
    /// A set of any list of so many entries.
    List(usize),
    /// A set of the list that full memory holds.
    SameList,
    /// A set of a list whose last entry alone is not permitted.
    WrongList,
    /// The five sets of any schedule of so many entries, its commit the last.
    Schedule(usize),
    /// A commit with the sums of what full memory holds.
    Commit,
    /// A commit whose last octet is not that of these sums.
    WrongCommit,
    /// A subscribe.
    Subscribe(Name),
    /// An unsubscribe.
    Unsubscribe(Name),
    /// What is not served: its code, its name, and how many octets its value has.
    NotServed(u8, Name, usize),
    /// An operation with an unknown code.
    Malformed,
    /// As many octets after the operations as a frame can hold.
    After,
}

/// Acts in order, each as often as its number says. Where there is none the message is empty.
pub type Acts = [(usize, Act)];

/// What memory holds before the messages.
#[derive(Clone, Copy, Debug, PartialEq, Eq)]
pub enum Memory {
    /// What it holds when it is fresh.
    Empty,
    /// Each value that a controller sets, as long as it can be, and the schedule among them runs.
    Full,
}

/// Makes messages for one memory.
pub struct Scene {
    dice: Dice,
    /// The schedule that full memory holds.
    held: Values,
}

impl Scene {
    /// A scene, and the messages that prepare its memory.
    pub fn new(seed: u64, memory: Memory) -> (Scene, Vec<Vec<u8>>) {
        let mut dice = Dice::new(seed);
        let (mut held, mut before) = (Values::default(), Vec::new());
        if memory == Memory::Full {
            held = schedules::roomy(&mut dice, MOST_ENTRIES);
            before.push(fill(&mut dice, &held).command());
        }
        (Scene { dice, held }, before)
    }

    /// The next message of these acts.
    pub fn message(&mut self, acts: &Acts) -> Vec<u8> {
        if acts.is_empty() {
            return Vec::new();
        }
        let mut operations = Operations::default();
        let mut place = None;
        for (count, act) in acts {
            for _ in 0..*count {
                self.add(*act, &mut operations, &mut place);
            }
        }
        let mut message = operations.command();
        if acts.iter().any(|(_, act)| *act == Act::After) {
            message.resize(LONGEST, 0);
        }
        message
    }

    /// Adds the operations of an act. The place is where the name of the last one stands.
    fn add(&mut self, act: Act, operations: &mut Operations, place: &mut Option<usize>) {
        let [list, commit] = [PARTS[2], COMMIT].map(|part| TABLE[part].name);
        match act {
            Act::Capabilities => operations.get_capabilities(),
            Act::Read(name) => operations.read(self.name(name, place)),
            Act::Subscribe(name) => operations.subscribe(self.name(name, place)),
            Act::Unsubscribe(name) => operations.unsubscribe(self.name(name, place)),
            Act::NotServed(code, name, length) => {
                operations.valued(code, self.name(name, place), &vec![1; length])
            }
            Act::SetAny => {
                let parameter = &TABLE[*place.insert(self.settable())];
                let value = values::permitted(&mut self.dice, parameter);
                operations.set(parameter.name, &value);
            }
            Act::Set(name, length, octet) => operations.set(name, &vec![octet; length]),
            Act::List(count) => operations.set(list, &values::list(&mut self.dice, count)),
            Act::SameList => operations.set(list, &self.held[2]),
            Act::WrongList => {
                let mut wrong = values::list(&mut self.dice, MOST_ENTRIES);
                // An interval of 0, in the last octets that are looked at.
                let interval = wrong.len() - 4;
                wrong[interval..].fill(0);
                operations.set(list, &wrong);
            }
            Act::Schedule(count) => {
                schedules::commit_all(&schedules::roomy(&mut self.dice, count), operations)
            }
            Act::Commit => operations.set(commit, &schedules::sums(&self.held)),
            Act::WrongCommit => {
                let [a, b, c, d] = schedules::sums(&self.held);
                operations.set(commit, &[a, b, c, d ^ 1]);
            }
            Act::Malformed => operations.named(UNKNOWN, commit),
            Act::After => {}
        }
    }

    fn name(&mut self, name: Name, place: &mut Option<usize>) -> u16 {
        let mut next = || {
            let next = place.map_or_else(|| self.dice.below(COUNT), |place| (place + 1) % COUNT);
            *place.insert(next)
        };
        match name {
            Name::Is(name) => name,
            Name::Next => TABLE[next()].name,
            Name::NextShort => loop {
                let parameter = &TABLE[next()];
                let absent = parameter.set_by == SetBy::Port;
                if absent || parameter.rule == Rule::Block || parameter.most <= SHORT {
                    break parameter.name;
                }
            },
            Name::Same => TABLE[place.unwrap_or(COMMIT)].name,
        }
    }

    fn settable(&mut self) -> usize {
        loop {
            // Any four octets are hardly the sums, and the commit would be refused.
            let index = values::place(&mut self.dice, SetBy::Controller);
            if index != COMMIT {
                return index;
            }
        }
    }
}

/// Sets every value that a controller sets, each as long as it can be, and commits the schedule.
fn fill(dice: &mut Dice, held: &Values) -> Operations {
    let mut operations = Operations::default();
    schedules::commit_all(held, &mut operations);
    for (index, parameter) in TABLE.iter().enumerate() {
        if parameter.set_by != SetBy::Controller || index == COMMIT || PARTS.contains(&index) {
            continue;
        }
        let value = match parameter.rule {
            Rule::Free => dice.octets(parameter.most),
            _ => values::permitted(dice, parameter),
        };
        operations.set(parameter.name, &value);
    }
    operations
}
