//! Every clause of soundness broken by itself, and random memories held against a plain reading.

use crate::sound::{self, place, room};
use kit::{list, schedule, set, sets, subscribe, Bench, Chance};

/// Memory with every value present, a running block and a pending mark.
pub fn full() -> Bench {
    let mut bench = Bench::fresh();
    bench.done(&sets(&schedule(5, 1_000, [1, 1_000])));
    for (name, value) in [
        (0x0040, vec![4]),
        (0x0041, vec![7]),
        (0x0042, vec![0xAB; 200]),
    ] {
        bench.done(&set(name, &value));
    }
    bench.done(&[set(0x0060, &[1]), set(0x0061, &[0xCD; 255])].concat());
    for name in [0x0001, 0x00A1, 0x00A4] {
        bench.done(&subscribe(name));
    }
    for (name, length) in [
        (0x0001, 8),
        (0x0008, 4),
        (0x00A0, 1),
        (0x00A1, 9),
        (0x00A2, 1),
    ] {
        assert_eq!(bench.local(name, &vec![3; length]), 0);
    }
    assert_eq!(bench.local(0x00A3, &[3; 255]), 0);
    assert_eq!(bench.local(0x00A4, &[3; 2]), 0);
    bench
}

/// The same while a notification waits: two names are in flight, one in flight and pending, and one
/// that is absent is in flight.
pub fn waiting() -> Bench {
    let mut bench = full();
    bench.done(&subscribe(0x00A3));
    assert_eq!(bench.local(0x00A3, &[]), 0);
    assert_eq!(bench.build().0, 0);
    assert_eq!(bench.local(0x00A1, &[4; 9]), 0);
    let flags = [0x0001, 0x00A1, 0x00A3, 0x00A4].map(|name| bench.memory[6 * place(name) + 2]);
    assert_eq!(flags, [11, 15, 10, 11]);
    bench
}

/// Fresh, full, and while waiting.
pub fn memories() -> [Vec<u8>; 3] {
    [Bench::fresh().memory, full().memory, waiting().memory]
}

/// Whether memory is sound in profile 02. In both it is told as the plain reading has it.
fn agree(memory: &[u8]) -> bool {
    let bench = Bench::of(memory.to_vec());
    let [told, _] = [2, 3].map(|profile| {
        let told = bench.with_profile(profile).is_sound();
        assert_eq!(told, sound::is_sound_of(profile, memory), "{profile}");
        told
    });
    told
}

fn changed(memory: &[u8], change: impl FnOnce(&mut Vec<u8>)) -> bool {
    let mut memory = memory.to_vec();
    change(&mut memory);
    agree(&memory)
}

/// Writes a value with its length and a zero tail, whatever the rules say.
fn install(memory: &mut [u8], name: u16, value: &[u8]) {
    let entry = 6 * place(name);
    memory[entry + 2] |= 1;
    memory[entry + 4..entry + 6].copy_from_slice(&(value.len() as u16).to_be_bytes());
    let (start, size) = room(place(name));
    memory[start..start + size].fill(0);
    memory[start..start + value.len()].copy_from_slice(value);
}

/// Makes a value absent in good form.
fn remove(memory: &mut [u8], name: u16) {
    install(memory, name, &[]);
    memory[6 * place(name) + 2] &= !1;
}

#[test]
fn full_and_fresh_memory_are_sound() {
    assert!(memories().iter().all(|memory| agree(memory)));
    assert!(!agree(&[0; 2_100]));
    assert!(!agree(&[]));
}

#[test]
fn names_zero_octets_and_lengths() {
    for memory in memories() {
        for entry in (0..114).step_by(6) {
            for octet in [0, 1, 3, 4, 5] {
                for bit in 0..8 {
                    // A length may still be right for a value that ends with zeros.
                    let sound = changed(&memory, |m| m[entry + octet] ^= 1 << bit);
                    assert!(!sound || octet >= 4);
                }
            }
        }
        for length in [2_099, 2_101] {
            assert!(!changed(&memory, |m| m.resize(length, 0)));
        }
    }
}

#[test]
fn every_value_of_every_flag_octet() {
    for memory in memories() {
        for entry in (0..114).step_by(6) {
            for flags in 0..=255 {
                let sound = changed(&memory, |m| m[entry + 2] = flags);
                assert!(!sound || flags < 16);
                // With pending or in flight only beside subscribed.
                assert!(!sound || flags < 4 || flags & 2 == 2);
            }
        }
    }
}

/// The places of what the port sets.
const OWN: [usize; 7] = [0, 6, 13, 14, 15, 16, 17];

#[test]
fn in_flight_stands_only_where_it_may() {
    let memory = full().memory;
    for place in 0..19 {
        for marks in 0..16 {
            for timer in [[0, 0], [1, 0], [1, 4]] {
                let sound = changed(&memory, |m| {
                    m[6 * place + 2] = 1 | marks << 1;
                    m[114..116].copy_from_slice(&timer);
                });
                let subscribed = marks & 1 == 1;
                let told = marks & 6 != 0;
                let in_flight = marks & 4 != 0;
                let expected = marks < 8
                    && (!told || subscribed && OWN.contains(&place))
                    && (!in_flight || timer[0] == 1);
                assert_eq!(sound, expected, "{place} {marks:04b} {timer:?}");
            }
        }
    }
}

#[test]
fn an_absent_name_may_be_in_flight() {
    for place in OWN {
        for (flags, timer, expected) in [
            (10, [1, 0], true),
            (14, [1, 4], true),
            (10, [0, 0], false),
            (14, [0, 0], false),
            (8, [1, 0], false),
            (12, [1, 0], false),
            (26, [1, 0], false),
        ] {
            let sound = changed(&Bench::fresh().memory, |m| {
                m[6 * place + 2] = flags;
                m[114..116].copy_from_slice(&timer);
            });
            assert_eq!(sound, expected, "{place} {flags} {timer:?}");
        }
    }
}

#[test]
fn nothing_is_in_flight_while_idle() {
    let memory = waiting().memory;
    assert!(changed(&memory, |m| m[115] = 4));
    assert!(!changed(&memory, |m| m[114] = 0));
    let idle = |places: &[usize]| {
        changed(&memory, |m| {
            m[114] = 0;
            places.iter().for_each(|place| m[6 * place + 2] &= !8);
        })
    };
    let in_flight = [0x0001, 0x00A1, 0x00A3, 0x00A4].map(place);
    assert!(idle(&in_flight));
    for left in 0..in_flight.len() {
        let others: Vec<usize> = (0..4)
            .filter(|n| *n != left)
            .map(|n| in_flight[n])
            .collect();
        assert!(!idle(&others), "{left} alone is in flight");
    }
}

#[test]
fn every_octet_changed_by_itself() {
    for memory in memories() {
        for at in 0..memory.len() {
            for change in [1, 0x80, 0xFF] {
                changed(&memory, |m| m[at] ^= change);
            }
        }
    }
}

#[test]
fn zero_tails() {
    let memory = Bench::fresh().memory;
    let (gate_enabled, _) = room(place(0x0003));
    for at in 116..2_100 {
        let sound = changed(&memory, |m| m[at] ^= 1);
        assert_eq!(sound, at == gate_enabled, "octet {at}");
    }
}

#[test]
fn timer_octets() {
    for (memory, may_be_idle) in [(full().memory, true), (waiting().memory, false)] {
        for state in 0..=255 {
            for expiries in 0..=255 {
                let sound = changed(&memory, |m| m[114..116].copy_from_slice(&[state, expiries]));
                let idle = may_be_idle && (state, expiries) == (0, 0);
                assert_eq!(sound, idle || state == 1 && expiries <= 4);
            }
        }
    }
}

#[test]
fn presence() {
    let memory = full().memory;
    for entry in 0..19 {
        let name = u16::from_be_bytes([memory[6 * entry], memory[6 * entry + 1]]);
        let needed = [0x0003, 0x000B, 0x0004, 0x0005, 0x0006, 0x0007].contains(&name);
        assert_eq!(changed(&memory, |m| remove(m, name)), !needed, "{name:04x}");
        let idle = |m: &mut Vec<u8>| {
            remove(m, 0x8001);
            remove(m, name);
        };
        assert_eq!(
            changed(&memory, idle),
            ![0x0003, 0x000B].contains(&name),
            "{name:04x}"
        );
    }
}

#[test]
fn values_off_their_rules() {
    let memory = full().memory;
    let longest = list(64, 1);
    let cases: [(u16, &[u8], bool); 14] = [
        (0x0003, &[2], false),
        (0x0004, &[0, 0, 0, 0, 0, 0, 0x3B, 0x9A, 0xC9, 0xFF], true),
        (0x0004, &[0, 0, 0, 0, 0, 0, 0x3B, 0x9A, 0xCA, 0x00], false),
        (0x0005, &[0, 0, 0, 64], true),
        (0x0005, &[0, 0, 0, 65], false),
        (0x0006, &[], true),
        (0x0006, &longest, true),
        (0x0006, &longest[..447], false),
        (0x0007, &[0; 8], false),
        (0x000B, &[0, 0, 0, 63], false),
        (0x0040, &[5], false),
        (0x0042, &[], false),
        (0x00A0, &[8], false),
        (0x00A4, &[1], false),
    ];
    for (name, value, sound) in cases {
        assert_eq!(
            changed(&memory, |m| install(m, name, value)),
            sound,
            "{name:04x} {value:?}"
        );
    }
}

#[test]
fn running_blocks() {
    let memory = full().memory;
    let runs = |count, interval, cycle, change: fn(&mut Vec<u8>)| {
        let values = schedule(count, interval, cycle);
        let mut block = values[..4]
            .iter()
            .flat_map(|(_, value)| value.clone())
            .collect();
        change(&mut block);
        changed(&memory, |m| install(m, 0x8001, &block))
    };
    assert!(runs(1, 1_000_000, [1, 1_000], |_| ()));
    assert!(runs(64, 1, [1, 1], |_| ()));
    assert!(!runs(1, 1_000_000, [1, 1_001], |_| ()));
    assert!(!runs(0, 1, [1, 1], |_| ()));
    assert!(!runs(2, 1, [1, 1], |block| block[13] = 1));
    assert!(!runs(2, 1, [1, 1], |block| block[13] = 3));
    assert!(!runs(2, 1, [1, 1], |block| block[14] = 3));
    assert!(!runs(2, 1, [1, 1], |block| block[15] = 6));
    assert!(!runs(2, 1, [1, 1], |block| block[20] = 0));
    assert!(!runs(2, 1, [1, 1], |block| block[6] = 0xFF));
    assert!(!runs(2, 1, [1, 0], |_| ()));
    assert!(!runs(2, 1, [1, 1], |block| block.push(0)));
    assert!(!runs(2, 1, [1, 1], |block| block.truncate(35)));
}

/// Where profile 03 ends: 36 entries in the list and in the running block, and no mark on 000B.
#[test]
fn the_bounds_of_profile_03() {
    let base = full().with_profile(3);
    let sound = |change: &dyn Fn(&mut Vec<u8>)| {
        let mut bench = base.clone();
        change(&mut bench.memory);
        agree(&bench.memory);
        bench.is_sound()
    };
    for count in [0, 1, 35, 36, 37, 63, 64] {
        let expected = count <= 36;
        let value = list(count, 1);
        assert_eq!(sound(&|m| install(m, 0x0006, &value)), expected, "{count}");
        let idle = sound(&|m| {
            remove(m, 0x8001);
            install(m, 0x0006, &value);
        });
        assert_eq!(idle, expected, "{count}");
        if count > 0 {
            let values = schedule(count, 1, [1, 1]);
            let block = values[..4].iter().flat_map(|(_, value)| value.clone());
            let block: Vec<u8> = block.collect();
            assert_eq!(sound(&|m| install(m, 0x8001, &block)), expected, "{count}");
        }
    }
    for flags in 0..=255 {
        let place = 6 * place(0x000B) + 2;
        assert_eq!(sound(&|m| m[place] = flags), flags == 1, "{flags}");
    }
    // The number that stands for the entries may be any that its rule has.
    assert!(sound(&|m| install(m, 0x0005, &[0, 0, 0, 64])));
    assert!(!sound(&|m| install(m, 0x0005, &[0, 0, 0, 65])));
    assert!(!sound(&|m| install(m, 0x0005, &[0, 64])));
    for name in [0x0001, 0x0003, 0x0005, 0x8001, 0x00A4] {
        assert!(sound(&|m| m[6 * place(name) + 2] |= 2), "{name:04x}");
    }
}

#[test]
fn random_changes() {
    let mut chance = Chance::new(7);
    let starts = memories();
    let mut sound = 0;
    for _ in 0..60_000 {
        let mut memory = starts[chance.below(3)].clone();
        for _ in 0..=chance.below(3) {
            let places = [116, 2_100][chance.below(2)];
            let at = chance.below(places);
            memory[at] = [chance.octet(), chance.below(16) as u8][chance.below(2)];
        }
        sound += usize::from(agree(&memory));
    }
    assert!(sound > 1_000, "only {sound} memories were sound");
}
