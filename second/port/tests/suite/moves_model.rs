//! Moves held against a plain reading of both forms, on memories by chance, and between calls by chance,
//! of which none is answered otherwise for them.

use crate::sound;
use crate::soundness::{full, memories, waiting};
use kit::{command, read, schedule, set, sets, subscribe, unsubscribe, Bench, Chance};

/// The number of a move forward and of a move back, by the clauses alone.
fn by_clauses(lent: &[u8], room: usize) -> [u8; 2] {
    let in_flight = |memory: &[u8]| (0..19).any(|place| memory[6 * place + 2] >= 8);
    let forward = match () {
        () if !sound::is_sound(lent) || in_flight(lent) => 1,
        () if room != 2_101 => 16,
        () => 0,
    };
    let (profile, behind) = match lent {
        [profile, behind @ ..] => (*profile, behind),
        [] => (0, lent),
    };
    let back = match () {
        () if !sound::is_sound_of(profile, behind) => 1,
        () if room != 2_100 => 16,
        () if profile == 3 => 19,
        () if in_flight(behind) => 17,
        () => 0,
    };
    [forward, back]
}

/// Fresh, full and waiting memory, and both of these as an old bridge has them.
fn starts() -> Vec<Vec<u8>> {
    let mut starts = memories().to_vec();
    for mut memory in [full().memory, waiting().memory] {
        for flags in memory[..114].iter_mut().skip(2).step_by(6) {
            *flags &= 7;
        }
        memory[114] = 1;
        starts.push(memory);
    }
    starts
}

/// One of these with up to two octets changed, in form B, in the old form or in neither.
fn any_lent(starts: &[Vec<u8>], chance: &mut Chance) -> Vec<u8> {
    let mut lent = starts[chance.below(starts.len())].clone();
    for _ in 0..chance.below(3) {
        let places = [116, 2_100][chance.below(2)];
        let at = chance.below(places);
        lent[at] = [chance.octet(), chance.below(16) as u8][chance.below(2)];
    }
    match chance.below(10) {
        0..=3 => lent.insert(0, 2),
        9 => lent.insert(0, 3),
        4 => lent.insert(0, chance.octet()),
        5 => lent.resize(2_098 + chance.below(5), 0),
        _ => {}
    }
    lent
}

#[test]
fn the_numbers_of_moves_are_those_of_the_clauses() {
    let mut chance = Chance::new(29);
    let starts = starts();
    let mut seen = [[0; 20]; 2];
    for _ in 0..60_000 {
        let lent = any_lent(&starts, &mut chance);
        let room = [
            2_100,
            2_101,
            2_100,
            2_101,
            2_099,
            2_102,
            chance.below(2_300),
        ][chance.below(7)];
        let bench = Bench::lend(&lent);
        let [forward, back] = [bench.forward(room), bench.back(room)];
        assert_eq!([forward.0, back.0], by_clauses(&lent, room));
        if forward.0 == 0 {
            assert!(forward.1 == [&[2], &lent[..]].concat());
        }
        if back.0 == 0 {
            assert!(back.1 == lent[1..]);
        }
        seen[0][usize::from(forward.0)] += 1;
        seen[1][usize::from(back.0)] += 1;
    }
    let often = |seen: &[usize; 20], number: usize| seen[number] > 500;
    assert!([0, 1, 16].iter().all(|n| often(&seen[0], *n)), "{seen:?}");
    assert!(
        [0, 1, 16, 17, 19].iter().all(|n| often(&seen[1], *n)),
        "{seen:?}"
    );
}

/// Any call; what it has answered.
fn called(bench: &mut Bench, call: usize, chance: &mut Chance) -> (u8, Vec<u8>) {
    let own = [0x0001, 0x0008, 0x00A0, 0x00A1, 0x00A4][chance.below(5)];
    let value = match own {
        0x0001 => chance.octets(8),
        0x0008 => chance.octets(4),
        0x00A0 => vec![1 + chance.below(7) as u8],
        0x00A1 => chance.octets(3),
        _ => chance.octets(2),
    };
    match call {
        0 => (bench.local(own, &value), vec![]),
        1 => (bench.local(own, &[]), vec![]),
        2 => bench.send(&command(&subscribe(own))),
        3 => bench.send(&command(&unsubscribe(own))),
        4 => bench.send(&command(&set(0x0042, &value))),
        5 => bench.send(&command(&sets(&schedule(1 + value.len(), 9, [1, 1])))),
        6 => bench.build(),
        7 => bench.send(&[4]),
        _ => (bench.expire(), vec![]),
    }
}

/// Two ports with the same calls, of which one is moved back and forward wherever it can be: each
/// answer is alike, and so is each read of a listed name.
#[test]
fn a_controller_notices_nothing_of_moves() {
    let cells = Bench::fresh().memory;
    let cells = cells[..114].chunks(6);
    let names: Vec<u8> = cells
        .flat_map(|cell| read(u16::from_be_bytes([cell[0], cell[1]])))
        .collect();
    let [mut moves, mut refused, mut waits] = [0; 3];
    for seed in 0..60 {
        let mut chance = Chance::new(seed);
        let [mut still, mut moved] = [Bench::fresh(), Bench::fresh()];
        for _ in 0..100 {
            if let (0, old) = moved.back(2_100) {
                waits += usize::from(old[114]);
                moved = Bench::lend(&Bench::lend(&old).forward(2_101).1);
                moves += 1;
            } else {
                refused += 1;
            }
            let call = [0, 0, 0, 1, 2, 2, 3, 4, 5, 6, 6, 6, 7, 8, 8][chance.below(15)];
            let seed = chance.below(1 << 30) as u64;
            let answers =
                [&mut still, &mut moved].map(|bench| called(bench, call, &mut Chance::new(seed)));
            assert_eq!(answers[0], answers[1]);
            let read = [&mut still, &mut moved].map(|bench| bench.send(&command(&names)));
            assert_eq!(read[0].0, 0);
            assert_eq!(read[0], read[1]);
            assert!(still.lent() == moved.lent());
        }
    }
    for (what, count, least) in [
        ("moves", moves, 2_000),
        ("refused with 17", refused, 500),
        ("moves while waiting", waits, 50),
    ] {
        assert!(count >= least, "{what}: {count}, not {least}");
    }
}
