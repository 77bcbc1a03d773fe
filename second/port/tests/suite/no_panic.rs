//! No call panics, and no refusal changes a lent octet, on random messages and memories.

use crate::soundness::{full, waiting};
use kit::{command, schedule, sets, valued, Bench, Chance};

/// Rounds of each test below; together they pass a hundred thousand.
const ROUNDS: usize = 40_000;

fn random_message(chance: &mut Chance) -> Vec<u8> {
    let length = match chance.below(20) {
        0 => 2_040 + chance.below(20),
        1 => chance.below(2_100),
        _ => chance.below(40),
    };
    let mut message = chance.octets(length);
    if chance.below(4) > 0 {
        let front = [1, 0, chance.below(40) as u8, chance.below(12) as u8, 0];
        let kept = length.min(front.len());
        message[..kept].copy_from_slice(&front[..kept]);
    }
    message
}

/// Every call once, then whether memory that was sound still is.
fn call_all(bench: &mut Bench, chance: &mut Chance, message: &[u8]) {
    let sound = bench.is_sound();
    let room = [0, 1, 5, 40, 1_599, 1_600, 4_096, 5_000][chance.below(8)];
    bench.send_into(message, room);
    let name = [0x0001, 0x00A0, 0x00A1, 0x00A4, chance.below(65_536) as u16][chance.below(5)];
    let length = chance.below(12);
    bench.local(name, &chance.octets(length));
    bench.build_into(room);
    bench.expire();
    let instant = i64::from_be_bytes(chance.octets(8).try_into().unwrap());
    assert_eq!(bench.gates(instant).0 != 1, sound);
    let room = [2_100, 2_101, 2_101, chance.below(2_300)][chance.below(4)];
    let moves = [bench.forward(room).0, bench.back(room).0];
    assert!(moves[usize::from(!sound)] == 1, "{moves:?}, {sound}");
    assert_eq!(bench.is_sound(), sound);
}

#[test]
fn random_messages_on_sound_memory() {
    let mut chance = Chance::new(11);
    let mut bench = Bench::fresh();
    for round in 0..ROUNDS {
        if round % 1_000 == 0 {
            let starts = [Bench::fresh(), full(), waiting()];
            bench = starts[chance.below(3)].with_profile([2, 3][chance.below(2)]);
        }
        let message = random_message(&mut chance);
        call_all(&mut bench, &mut chance, &message);
    }
}

#[test]
fn damaged_commands_on_damaged_memory() {
    let mut chance = Chance::new(12);
    let starts = [Bench::fresh(), full(), waiting()];
    let not_served: Vec<u8> = [6, 7, 8, 9]
        .iter()
        .flat_map(|code| valued(*code, 0x0006, &[*code; 9]))
        .collect();
    let good = command(&[sets(&schedule(9, 10, [1, 1_000])), not_served].concat());
    for _ in 0..ROUNDS {
        let mut bench = starts[chance.below(3)].with_profile([2, 3][chance.below(2)]);
        let mut message = good.clone();
        for _ in 0..chance.below(4) {
            let at = chance.below(message.len());
            message[at] = chance.octet();
        }
        message.truncate(good.len() - chance.below(2) * chance.below(good.len()));
        for _ in 0..chance.below(4) {
            let places = [116, bench.memory.len()][chance.below(2)];
            let at = chance.below(places);
            bench.memory[at] = [chance.octet(), chance.below(16) as u8][chance.below(2)];
        }
        call_all(&mut bench, &mut chance, &message);
    }
}

#[test]
fn random_memories_of_any_length() {
    let mut chance = Chance::new(13);
    for _ in 0..ROUNDS {
        let lengths = [2_100, 2_101, chance.below(2_300), chance.below(130)];
        let length = lengths[chance.below(4)];
        let octets = chance.octets(64);
        let mut memory: Vec<u8> = octets.iter().copied().cycle().take(length).collect();
        if chance.below(2) == 0 {
            let names = &Bench::fresh().memory[..length.min(116)];
            memory[..names.len()].copy_from_slice(names);
        }
        let message = random_message(&mut chance);
        let mut bench = [Bench::of(memory.clone()), Bench::lend(&memory)][chance.below(2)].clone();
        call_all(&mut bench, &mut chance, &message);
        let refused = bench.lent().len() != 2_101;
        assert_eq!(bench.make_fresh(), u8::from(refused));
    }
}
