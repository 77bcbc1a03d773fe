//! Messages for traffic: commands of all kinds, most of them carried out, and faulty ones.

use port::table::{SetBy, COMMIT, TABLE};
use port::Profile;

use super::dice::Dice;
use super::not_served::{self, DELETE_ENTRY, SELECTIVE_READ};
use super::operations::{Operations, BEFORE_LIST, COMMAND};
use super::{forms, release_16, schedules, values};

const NOTIFY_ACK: u8 = 0x04;
const GATE_ENABLED: u16 = 0x0003;
const CHASSIS_ID: u16 = 0x0042;
const UNLISTED: u16 = 0x0002;
/// Codes that no operation has.
const UNKNOWN: [u8; 5] = [0x00, 0x0A, 0x0A, 0x0B, 0xFF];

/// Longest message that is taken.
const LONGEST: usize = 2_048;
/// Longest list of operations in such a message.
const LONGEST_LIST: usize = LONGEST - BEFORE_LIST;

/// One message in so many is from a controller of the other release than the memory is for.
const STRANGERS: usize = 4;

/// Any message, fit for the sound memory that will take it.
pub fn message(dice: &mut Dice, memory: &[u8]) -> Vec<u8> {
    let by = match forms::profile(memory) {
        profile if dice.one_in(STRANGERS) => forms::other(profile),
        profile => profile,
    };
    match dice.below(41) {
        0..=13 => mixed(dice, by).command(),
        14..=19 => schedules::operations(dice, memory, by).command(),
        20 => schedules::recommit(memory).command(),
        21..=22 => off_values(dice, by).command(),
        23..=25 => many(dice, by).command(),
        26..=27 => longest(dice, by),
        28..=29 => large_reply(dice, by).command(),
        30..=31 => with_octets_after(dice, by),
        32..=33 => wrong_length(dice, by),
        34..=35 => malformed(dice, by),
        36 => wrong_type(dice, by),
        37..=39 => own_beside_others(dice, by).command(),
        _ => acknowledgement(dice),
    }
}

/// An acknowledgement, sometimes with octets after it.
pub fn acknowledgement(dice: &mut Dice) -> Vec<u8> {
    let mut message = vec![NOTIFY_ACK];
    if dice.one_in(3) {
        let after = dice.between(1, 5);
        message.extend(dice.octets(after));
    }
    message
}

/// A command that subscribes to all parameters set by the port but one.
pub fn subscriptions(dice: &mut Dice) -> Vec<u8> {
    let spared = values::place(dice, SetBy::Port);
    let mut operations = Operations::default();
    for (index, parameter) in TABLE.iter().enumerate() {
        if parameter.set_by == SetBy::Port && index != spared {
            operations.subscribe(parameter.name);
        }
    }
    operations.command()
}

fn mixed(dice: &mut Dice, by: &'static Profile) -> Operations {
    let mut operations = Operations::by(by);
    for _ in 0..dice.between(1, 6) {
        add_any(dice, &mut operations);
    }
    operations
}

/// Adds any operation that can be read.
pub fn add_any(dice: &mut Dice, operations: &mut Operations) {
    let name = values::name(dice);
    match dice.below(17) {
        0 => operations.get_capabilities(),
        1..=4 => operations.read(name),
        5..=6 => operations.subscribe(name),
        7 => operations.unsubscribe(name),
        8 => operations.set(name, &[1]),
        9..=11 => add_own(dice, operations),
        _ => {
            let parameter = &TABLE[values::place(dice, SetBy::Controller)];
            let value = values::permitted(dice, parameter);
            operations.set(parameter.name, &value);
        }
    }
}

/// Adds what controllers of the other release do not send, or are answered otherwise.
fn add_own(dice: &mut Dice, operations: &mut Operations) {
    match not_served::is_known_to(operations.by) {
        true => not_served::add(dice, operations),
        false => release_16::add(dice, operations),
    }
}

/// Some of that beside operations with the same names.
fn own_beside_others(dice: &mut Dice, by: &'static Profile) -> Operations {
    let operations = Operations::by(by);
    match not_served::is_known_to(by) {
        true => not_served::beside_others(dice, operations),
        false => release_16::beside_others(dice, operations),
    }
}

/// A command of `length` octets, filled by a value of that.
fn own_filled(dice: &mut Dice, by: &'static Profile, length: usize) -> Operations {
    let operations = Operations::by(by);
    match not_served::is_known_to(by) {
        true => not_served::filled(dice, operations, length),
        false => release_16::filled(dice, operations, length),
    }
}

/// Sets of values one step off, among reads that show that nothing came of them.
fn off_values(dice: &mut Dice, by: &'static Profile) -> Operations {
    let mut operations = Operations::by(by);
    for _ in 0..dice.between(1, 3) {
        let parameter = &TABLE[dice.below(TABLE.len())];
        operations.set(parameter.name, &values::off(dice, parameter));
        operations.read(parameter.name);
    }
    operations
}

/// As many records of one kind as can be counted, or one more.
fn many(dice: &mut Dice, by: &'static Profile) -> Operations {
    let count = dice.pick(&[255, 255, 256]);
    let (sets, name) = (dice.one_in(2), dice.pick(&[GATE_ENABLED, UNLISTED]));
    // What is not served is counted with what fails: none of it, some of it, or nothing else.
    let one_in = match not_served::is_known_to(by) {
        true => dice.pick(&[usize::MAX, usize::MAX, 2, 1]),
        false => usize::MAX,
    };
    let mut operations = Operations::by(by);
    for _ in 0..count {
        match (sets, dice.one_in(one_in)) {
            (true, false) => operations.set(name, &[dice.below(2) as u8]),
            (true, true) => operations.valued(DELETE_ENTRY, name, &[]),
            (false, false) => operations.read(name),
            (false, true) => operations.valued(SELECTIVE_READ, name, &[]),
        }
    }
    match dice.below(4) {
        0..=1 => {}
        2 => operations.read(dice.pick(&[UNLISTED, GATE_ENABLED])),
        _ => add_own(dice, &mut operations),
    }
    operations
}

/// A message of 2,048 octets, or of more, filled with operations or with octets after them.
fn longest(dice: &mut Dice, by: &'static Profile) -> Vec<u8> {
    let length = match dice.below(7) {
        0..=2 => LONGEST,
        3..=5 => LONGEST + 1,
        _ => 65_535,
    };
    let mut message = match dice.below(4) {
        0 => vec![NOTIFY_ACK],
        1 => mixed(dice, by).command(),
        2 => own_filled(dice, by, length).command(),
        _ => filled(dice, by).command(),
    };
    let fill = dice.octet();
    message.resize(length, fill);
    message
}

fn filled(dice: &mut Dice, by: &'static Profile) -> Operations {
    let mut operations = mixed(dice, by);
    while operations.length() + 3 <= LONGEST_LIST {
        let name = values::name(dice);
        match dice.below(8) {
            0 => operations.unsubscribe(name),
            1 => operations.read(GATE_ENABLED),
            _ => operations.subscribe(name),
        }
    }
    while operations.length() < LONGEST_LIST {
        operations.get_capabilities();
    }
    operations
}

/// A command whose reply has 4,095 to 4,098 octets, the elements 71 and 72 included.
fn large_reply(dice: &mut Dice, by: &'static Profile) -> Operations {
    let mut operations = Operations::by(by);
    let chassis_id = dice.octets(255);
    operations.set(CHASSIS_ID, &chassis_id);
    let elements = 1 + (3 + 2) + (3 + 2 + 3 + chassis_id.len());
    let mut left = dice.between(4_095, 4_098) - elements;
    // Records of 259, then of 5, then errors of 3 octets; any rest from 8 on can be made of these.
    while left >= 4 + chassis_id.len() + 8 {
        operations.read(CHASSIS_ID);
        left -= 4 + chassis_id.len();
    }
    while !left.is_multiple_of(3) {
        operations.read(GATE_ENABLED);
        left -= 5;
    }
    for _ in 0..left / 3 {
        match dice.below(4) {
            0..=1 if !not_served::is_known_to(by) => operations.set(UNLISTED, &[]),
            0 => operations.valued(SELECTIVE_READ, GATE_ENABLED, &[]),
            1 => operations.valued(DELETE_ENTRY, CHASSIS_ID, &[]),
            _ => operations.read(UNLISTED),
        }
    }
    operations
}

fn with_octets_after(dice: &mut Dice, by: &'static Profile) -> Vec<u8> {
    let mut message = mixed(dice, by).command();
    let after = dice.between(1, 12);
    message.extend(dice.octets(after));
    message
}

/// L missing, 0, one past the end, far past it, or short of the last operation's end.
fn wrong_length(dice: &mut Dice, by: &'static Profile) -> Vec<u8> {
    let operations = mixed(dice, by);
    let right = operations.length();
    match dice.below(6) {
        0 => vec![COMMAND],
        1 => vec![COMMAND, dice.octet()],
        2 => operations.command_telling(0),
        3 => operations.command_telling(right + 1),
        4 => operations.command_telling(65_535),
        _ => operations.command_telling(right - 1),
    }
}

/// An unknown code, or an operation cut short, alone or after others that may be too many.
fn malformed(dice: &mut Dice, by: &'static Profile) -> Vec<u8> {
    let mut operations = match dice.below(5) {
        0..=1 => Operations::by(by),
        2..=3 => mixed(dice, by),
        _ => many(dice, by),
    };
    if dice.one_in(2) {
        // With a name after it, or a name and a value, only the code itself is wrong.
        let (code, name) = (dice.pick(&UNKNOWN), values::name(dice));
        match dice.one_in(2) {
            true => operations.named(code, name),
            false => operations.valued(code, name, &not_served::value(dice, name)),
        }
        return operations.command();
    }
    let before = operations.length();
    let parameter = &TABLE[values::place(dice, SetBy::Controller)];
    match dice.below(4) {
        0 => operations.read(parameter.name),
        1 => operations.subscribe(TABLE[COMMIT].name),
        2 => add_own(dice, &mut operations),
        _ => operations.set(parameter.name, &values::permitted(dice, parameter)),
    }
    let whole = operations.length();
    operations.truncate(dice.between(before + 1, whole - 1));
    operations.command()
}

fn wrong_type(dice: &mut Dice, by: &'static Profile) -> Vec<u8> {
    let mut message = mixed(dice, by).command();
    message[0] = dice.pick(&[0x00, 0x02, 0x03, 0x05, 0x06, 0xFF]);
    if dice.one_in(3) {
        message.clear();
    }
    message
}
