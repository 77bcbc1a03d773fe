//! Form B: the octet of a profile ahead of the memory, which each call asks for and none but making fresh
//! writes.

use crate::sound::{self, place, room};
use crate::soundness::{full, memories, waiting};
use kit::{command, hex, read, set, subscribe, Bench, Chance};

/// Every octet that the first one may not be: those of no profile.
fn others() -> impl Iterator<Item = u8> {
    (0..=255).filter(|first| ![2, 3].contains(first))
}

/// The numbers of all calls but making fresh, each on the memory as it is, and of gates.
fn numbers(bench: &Bench) -> [u8; 6] {
    let each = || bench.clone();
    [
        each().send(&command(&read(0x0003))).0,
        each().send(&[4]).0,
        each().local(0x00A4, &[0, 1]),
        each().build().0,
        each().expire(),
        each().gates(0).0,
    ]
}

#[test]
fn in_form_b_each_octet_stands_one_further() {
    let mut bench = Bench::fresh();
    bench.done(&[subscribe(0x00A4), set(0x0042, b"name")].concat());
    assert_eq!(bench.local(0x00A4, &[7, 8]), 0);
    assert_eq!(bench.build().0, 0);
    assert_eq!(bench.expire(), 20);
    let lent = bench.lent();
    assert_eq!(lent.len(), 2_101);
    assert_eq!(lent[..13], hex("02 0001 00 00 0000 0003 01 00 0001"));
    let cell = 1 + 6 * place(0x00A4);
    assert_eq!(lent[cell..cell + 6], hex("00A4 0B 00 0002"));
    assert_eq!(lent[115..117], [1, 1]);
    let [(id, _), (ttl, _)] = [0x0042, 0x00A4].map(|name| room(place(name)));
    assert_eq!(lent[1 + id..1 + id + 5], *b"name\0");
    assert_eq!(lent[1 + ttl..1 + ttl + 2], [7, 8]);
}

#[test]
fn each_call_refuses_every_other_first_octet() {
    for memory in memories() {
        assert!(!numbers(&Bench::of(memory.clone())).contains(&1));
        for first in others() {
            let bench = Bench::lend(&[&[first], &memory[..]].concat());
            assert_eq!(numbers(&bench), [1; 6], "first octet {first:02x}");
            assert_eq!(bench.back(2_100).0, 1, "first octet {first:02x}");
        }
    }
}

#[test]
fn each_call_refuses_every_other_length() {
    for memory in memories() {
        let lent = Bench::of(memory.clone()).lent();
        for length in [0, 1, 2, 115, 2_099, 2_100, 2_102, 2_200] {
            let mut lent = lent.clone();
            lent.resize(length, 0);
            let bench = Bench::lend(&lent);
            assert_eq!(numbers(&bench), [1; 6], "{length} octets");
            assert_eq!(bench.back(2_100).0, 1, "{length} octets");
        }
        // The octet 02 twice, and at the end instead.
        for lent in [
            [&[2, 2], &memory[..]].concat(),
            [&memory[..], &[2]].concat(),
        ] {
            assert_eq!(numbers(&Bench::lend(&lent)), [1; 6]);
        }
    }
}

/// Memory of the old form is refused by each call, whatever it holds.
#[test]
fn each_call_refuses_the_old_form() {
    for memory in memories() {
        let bench = Bench::lend(&memory);
        assert_eq!(numbers(&bench), [1; 6]);
        assert_eq!(bench.back(2_100).0, 1);
        assert_eq!(bench.clone().make_fresh(), 1);
    }
}

/// Whatever is lent, it is sound in form B exactly if it is in form B and sound behind the first octet by
/// the profile which that octet tells.
#[test]
fn sound_in_form_b_is_sound_behind_the_first_octet() {
    let mut chance = Chance::new(23);
    let starts = memories();
    let mut seen = [0; 2];
    for _ in 0..20_000 {
        let first = [2, 3][chance.below(2)];
        let mut lent = [&[first], &starts[chance.below(3)][..]].concat();
        for _ in 0..chance.below(3) {
            let places = [117, lent.len()][chance.below(2)];
            let at = chance.below(places);
            lent[at] = [chance.octet(), chance.below(16) as u8][chance.below(2)];
        }
        if chance.below(8) == 0 {
            lent.resize(2_099 + chance.below(5), 0);
        }
        let sound = lent.len() == 2_101 && sound::is_sound_of(lent[0], &lent[1..]);
        let refused = numbers(&Bench::lend(&lent)).map(|number| number == 1);
        assert_eq!(refused, [!sound; 6]);
        seen[usize::from(sound)] += 1;
    }
    assert!(seen.iter().all(|count| *count > 4_000), "{seen:?}");
}

/// Each call on memory that it changes: the first octet is that of the profile before and after it.
#[test]
fn the_first_octet_stays_in_every_call() {
    for profile in [2, 3] {
        first_stays(profile);
    }
}

fn first_stays(profile: u8) {
    let mut bench = Bench::fresh_of(profile);
    let mut stays = |step: &mut dyn FnMut(&mut Bench) -> u8, number: u8| {
        let before = bench.lent();
        assert_eq!(step(&mut bench), number);
        let after = bench.lent();
        assert_eq!([before[0], after[0]], [profile; 2]);
        assert_eq!(after.len(), 2_101);
        assert_ne!(before, after);
    };
    stays(&mut |b| b.send(&command(&subscribe(0x0001))).0, 0);
    stays(&mut |b| b.send(&command(&set(0x0003, &[1]))).0, 0);
    stays(&mut |b| b.local(0x0001, &[9; 8]), 0);
    stays(&mut |b| b.build().0, 0);
    stays(&mut |b| b.expire(), 20);
    stays(&mut |b| b.send(&[4]).0, 0);
    stays(&mut |b| b.local(0x0001, &[]), 0);
    stays(&mut |b| b.build().0, 0);
    for number in [20, 20, 20, 20, 21] {
        stays(&mut |b| b.expire(), number);
    }
    stays(&mut |b| b.make_fresh_of(profile), 0);
}

/// Making fresh takes any 2,101 octets, whatever the first is, and no other number of them.
#[test]
fn making_fresh_looks_at_the_length_alone() {
    let fresh = Bench::fresh().lent();
    assert_eq!(fresh[..7], hex("02 0001 00 00 0000"));
    let old = Bench::fresh().memory;
    for memory in [
        vec![0xEE; 2_100],
        old.clone(),
        full().memory,
        waiting().memory,
    ] {
        for first in 0..=255 {
            let mut bench = Bench::lend(&[&[first], &memory[..]].concat());
            assert_eq!(bench.make_fresh(), 0, "first octet {first:02x}");
            assert!(bench.lent() == fresh, "first octet {first:02x}");
        }
    }
    for length in [0, 1, 2_099, 2_100, 2_102, 2_200] {
        for mut lent in [fresh.clone(), old.clone(), vec![2; 2_101]] {
            lent.resize(length, 2);
            let mut bench = Bench::lend(&lent);
            assert_eq!(bench.make_fresh(), 1, "{length} octets");
            assert!(bench.lent() == lent);
        }
    }
}
