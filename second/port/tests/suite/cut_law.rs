//! A command that is carried out may be cut into commands sent in order: each is carried out,
//! memory ends up the same to the octet, and the records are those of the partial replies joined.

use crate::soundness::{full, waiting};
use kit::{command, list, read, schedule, set, sets, subscribe, unsubscribe, valued};
use kit::{Bench, Chance, Reply};

const NAMES: [u16; 22] = [
    0x0001, 0x0003, 0x0004, 0x0005, 0x0006, 0x0007, 0x0008, 0x000B, 0x0040, 0x0041, 0x0042, 0x0060,
    0x0061, 0x00A0, 0x00A1, 0x00A2, 0x00A3, 0x00A4, 0x8001, 0x0002, 0x8002, 0x0142,
];

/// The codes of what is not served.
const NOT_SERVED: [u8; 4] = [6, 7, 8, 9];

fn random_operation(chance: &mut Chance) -> Vec<u8> {
    let name = NAMES[chance.below(NAMES.len())];
    match chance.below(16) {
        0 => vec![1],
        1..=3 => read(name),
        4 => subscribe(name),
        5 => unsubscribe(name),
        6 => read(0x8001),
        7 => set(0x0003, &[chance.below(3) as u8]),
        8 => {
            let count = [0, 1, 2, 36, 37, 64][chance.below(6)];
            set(0x0006, &list(count, 1 + chance.below(1_000) as u32))
        }
        9 => {
            let length = chance.below(6);
            set(name, &chance.octets(length))
        }
        10 => set(0x0042, &vec![chance.octet(); 1 + chance.below(255)]),
        11..=14 => {
            let code = NOT_SERVED[chance.below(NOT_SERVED.len())];
            let length = [0, 1, chance.below(6), chance.below(300)][chance.below(4)];
            valued(code, name, &chance.octets(length))
        }
        _ => set(0x0061, &vec![chance.octet(); 1 + chance.below(40)]),
    }
}

/// Operations one by one: random ones, with whole schedules in between.
pub fn random_operations(chance: &mut Chance) -> Vec<Vec<u8>> {
    let mut operations = Vec::new();
    for _ in 0..=chance.below(24) {
        if chance.below(8) == 0 {
            let count = [1, 2, 5, 36, 37][chance.below(5)];
            let numerator = chance.below(3) as u32;
            let values = schedule(count, 1 + chance.below(400) as u32, [numerator, 100_000]);
            operations.extend(values.iter().map(|(name, value)| set(*name, value)));
        } else {
            operations.push(random_operation(chance));
        }
    }
    operations
}

/// Cuts a row of operations into commands, none of them empty.
fn random_cuts(chance: &mut Chance, operations: &[Vec<u8>]) -> Vec<Vec<u8>> {
    let often = 1 + chance.below(6);
    let mut commands = vec![Vec::new()];
    for operation in operations {
        let last = commands.len() - 1;
        if !commands[last].is_empty() && chance.below(often) == 0 {
            commands.push(operation.clone());
        } else {
            commands[last].extend(operation);
        }
    }
    commands
}

fn starts() -> [Bench; 4] {
    let mut committed = Bench::fresh();
    committed.done(&sets(&schedule(40, 5, [1, 1_000])));
    [Bench::fresh(), committed, full(), waiting()]
}

/// Memory of profile 03: fresh, with a schedule that runs, and as above.
pub fn starts_of_release_16() -> [Bench; 4] {
    let mut committed = Bench::fresh();
    committed.done(&sets(&schedule(36, 5, [1, 1_000])));
    [Bench::fresh(), committed, full(), waiting()].map(|bench| bench.with_profile(3))
}

/// The same operation as controllers of Release 16 send it; none where they do not.
fn of_release_16(operation: &[u8]) -> Option<Vec<u8>> {
    match operation {
        [6..=9, ..] => None,
        [3, 0, 5, 0, 4, _, _, high, low] => Some(set(0x0005, &[*high, *low])),
        _ => Some(operation.to_vec()),
    }
}

/// Sends a command as one and cut at random, both from one start: its reply, if it is carried out.
fn cut_at_random(chance: &mut Chance, start: &Bench, operations: &[Vec<u8>]) -> Option<Reply> {
    let mut whole = start.clone();
    let (number, reply) = whole.send(&command(&operations.concat()));
    if number != 0 {
        assert!([3, 7].contains(&number));
        return None;
    }
    let reply = Reply::parse(&reply);
    let mut parts = start.clone();
    let mut joined = Reply::default();
    for part in random_cuts(chance, operations) {
        joined.join(Reply::parse(&parts.done(&part)));
    }
    assert_eq!(reply, joined);
    assert!(whole.lent() == parts.lent() && whole.is_sound());
    Some(reply)
}

#[test]
fn random_commands_of_release_16_in_random_cuts() {
    let mut chance = Chance::new(4);
    let starts = starts_of_release_16();
    let (mut carried_out, mut commits, mut too_long) = (0, 0, 0);
    for _ in 0..12_000 {
        let operations = random_operations(&mut chance);
        let operations: Vec<_> = operations.iter().filter_map(|o| of_release_16(o)).collect();
        if operations.is_empty() {
            continue;
        }
        let start = &starts[chance.below(starts.len())];
        let Some(reply) = cut_at_random(&mut chance, start, &operations) else {
            continue;
        };
        assert!(reply.long_updates.is_empty());
        carried_out += 1;
        let updates = reply.updates.iter();
        commits += updates.filter(|(name, _)| *name == 0x8001).count();
        let errors = reply.update_errors.iter();
        too_long += errors.filter(|error| **error == (0x0006, 0x6F)).count();
    }
    assert!(carried_out > 8_000, "{carried_out} were carried out");
    assert!(commits > 1_000, "{commits} commits succeeded");
    assert!(too_long > 1_000, "{too_long} lists were too long");
}

#[test]
fn random_commands_in_random_cuts() {
    let mut chance = Chance::new(3);
    let starts = starts();
    let (mut carried_out, mut commits, mut long) = (0, 0, 0);
    let (mut selective, mut deletes) = (0, 0);
    for _ in 0..12_000 {
        let operations = random_operations(&mut chance);
        let start = &starts[chance.below(starts.len())];
        let Some(reply) = cut_at_random(&mut chance, start, &operations) else {
            continue;
        };
        carried_out += 1;
        commits += reply
            .updates
            .iter()
            .filter(|(name, _)| *name == 0x8001)
            .count();
        long += reply.long_updates.len();
        let fail = |error: &&(u16, u8)| error.1 == 0x6F;
        selective += reply.read_errors.iter().filter(fail).count();
        deletes += reply.update_errors.iter().filter(fail).count();
    }
    assert!(
        carried_out > 8_000,
        "{carried_out} commands were carried out"
    );
    assert!(commits > 1_000, "{commits} commits succeeded");
    assert!(long > 1_000, "{long} updates were long");
    assert!(selective > 1_000, "{selective} reads were selective");
    assert!(deletes > 1_000, "{deletes} entries were to be deleted");
}

#[test]
fn every_single_cut_of_one_long_command() {
    let first = schedule(37, 5, [1, 1_000]);
    let second = schedule(2, 5, [1, 1_000]);
    let mut operations = vec![vec![1], subscribe(0x00A4), read(0x8001), read(0x00A4)];
    for values in [&first, &second] {
        operations.extend(values.iter().map(|(name, value)| set(*name, value)));
        operations.extend([read(0x0006), read(0x8001), unsubscribe(0x0001), vec![1]]);
        operations.extend(NOT_SERVED.map(|code| valued(code, 0x00A4, &[0, 1])));
        operations.extend(NOT_SERVED.map(|code| valued(code, 0xFFFF, &[])));
    }
    for start in starts() {
        let mut whole = start.clone();
        let reply = Reply::parse(&whole.done(&operations.concat()));
        for cut in 1..operations.len() {
            let mut parts = start.clone();
            let mut joined = Reply::parse(&parts.done(&operations[..cut].concat()));
            joined.join(Reply::parse(&parts.done(&operations[cut..].concat())));
            assert_eq!(reply, joined);
            assert!(whole.memory == parts.memory);
        }
    }
}
