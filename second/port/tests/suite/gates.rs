//! Which gates are open: the example of the rules, refusals, and the edges of intervals and cycles.

use crate::soundness::full;
use kit::{command, entries, list, schedule, schedule_of, set, sets, subscribe, Bench};

/// Instants before the base time, at it and after it, as far as they go.
const INSTANTS: [i64; 7] = [i64::MIN, i64::MIN + 1, -1, 0, 1, i64::MAX - 1, i64::MAX];

/// A port whose running block has the given entries and cycle.
fn running(told: &[(u8, u32)], cycle: [u32; 2]) -> Bench {
    let mut bench = Bench::fresh();
    bench.done(&sets(&schedule_of(entries(told), cycle)));
    assert_eq!(bench.gates(0).0, 0, "{told:?} {cycle:?}");
    bench
}

/// The states, the number of the entry and the nanoseconds at an instant from 0 on.
fn told(bench: &Bench, instant: i64) -> (u8, usize, u64) {
    let (number, told) = bench.gates(instant);
    assert_eq!(number, 0);
    told.unwrap()
}

#[test]
fn the_example_of_the_rules() {
    let bench = running(&[(0xFF, 4), (0x01, 3)], [1, 100_000_000]);
    assert_eq!(told(&bench, 3), (0xFF, 0, 1));
    assert_eq!(told(&bench, 4), (0x01, 1, 6));
    assert_eq!(told(&bench, 19), (0x01, 1, 1));
    assert_eq!(told(&bench, 20), (0xFF, 0, 4));
    assert_eq!(bench.gates(-1), (0, None));
}

#[test]
fn number_1_memory_of_wrong_length_or_not_sound() {
    for sound in [Bench::fresh(), full()] {
        for length in [0, 1, 116, 1_630, 2_099, 2_101, 2_200] {
            let mut bench = sound.clone();
            bench.memory.resize(length, 0);
            for instant in INSTANTS {
                assert_eq!(bench.gates(instant), (1, None), "{length} octets");
            }
        }
        // The octet behind the flags of 0001, the expiries, and one behind the value of 8001.
        for at in [3, 115, 2_099] {
            let mut bench = sound.clone();
            bench.memory[at] = 5;
            for instant in INSTANTS {
                assert_eq!(bench.gates(instant), (1, None), "octet {at}");
            }
        }
    }
}

#[test]
fn number_1_for_every_octet_that_makes_memory_unsound() {
    for sound in [Bench::fresh(), full()] {
        for at in 0..sound.memory.len() {
            let mut bench = sound.clone();
            bench.memory[at] ^= 0x80;
            let number = if bench.is_sound() {
                sound.gates(7).0
            } else {
                1
            };
            assert_eq!(bench.gates(7).0, number, "octet {at}");
        }
    }
}

#[test]
fn number_15_while_no_block_runs() {
    let [values @ .., (_, sums)] = schedule(2, 5, [1, 1_000]);
    let mut ports = vec![Bench::fresh()];
    // Set and not committed; then a commit that fails.
    let mut bench = Bench::fresh();
    bench.done(&[sets(&values), subscribe(0x8001)].concat());
    ports.push(bench.clone());
    bench.done(&set(0x8001, &[0; 4]));
    ports.push(bench.clone());
    // One that ran, until memory was made fresh.
    bench.done(&set(0x8001, &sums));
    assert_eq!(bench.gates(0).0, 0);
    assert_eq!(bench.make_fresh(), 0);
    ports.push(bench);
    for bench in ports {
        for instant in INSTANTS {
            assert_eq!(bench.gates(instant), (15, None), "instant {instant}");
        }
    }
}

#[test]
fn a_commit_that_is_not_kept_starts_nothing() {
    let mut bench = Bench::fresh();
    let operations = [sets(&schedule(2, 5, [1, 1_000])), vec![10]].concat();
    assert_eq!(bench.send(&command(&operations)).0, 6);
    assert_eq!(bench.gates(0), (15, None));
    let operations = sets(&schedule(2, 5, [1, 1_000]));
    assert_eq!(bench.send_into(&command(&operations), 20).0, 7);
    assert_eq!(bench.gates(0), (15, None));
}

#[test]
fn before_the_base_time_it_has_not_started() {
    for bench in [running(&[(1, 1)], [1, 1_000_000_000]), full()] {
        for below in [i64::MIN, i64::MIN + 1, i64::from(i32::MIN), -10, -2, -1] {
            assert_eq!(bench.gates(below), (0, None), "instant {below}");
        }
        assert_eq!(told(&bench, 0).1, 0);
    }
}

#[test]
fn the_beginning_is_inside_an_interval_and_the_end_is_not() {
    let bench = running(&[(0xA0, 3), (0xA1, 1), (0xA2, 5)], [12, 1_000_000_000]);
    let entries = [0, 0, 0, 1, 2, 2, 2, 2, 2, 2, 2, 2];
    let nanoseconds = [3, 2, 1, 1, 8, 7, 6, 5, 4, 3, 2, 1];
    // The last cycles that begin within the range, and the first ones.
    let last = i64::MAX / 12 * 12;
    for cycle in [0, 12, 24, 12_000_000_000, last - 24, last - 12] {
        for (time, (entry, nanoseconds)) in (0..).zip(entries.into_iter().zip(nanoseconds)) {
            let expected = (0xA0 + entry as u8, entry, nanoseconds);
            assert_eq!(told(&bench, cycle + time), expected, "{cycle} + {time}");
        }
    }
    assert_eq!(i64::MAX - last, 7);
    assert_eq!(told(&bench, i64::MAX), (0xA2, 2, 5));
}

#[test]
fn edges_of_64_entries() {
    let told_entries: Vec<(u8, u32)> = (0..64).map(|k| (k as u8 * 3, 1 + k * k)).collect();
    let total: i64 = (0..64).map(|k| 1 + k * k).sum();
    let cycle = total + 100;
    let bench = running(&told_entries, [cycle as u32, 1_000_000_000]);
    for begin in [0, cycle, 1_000 * cycle] {
        let mut at = begin;
        for (entry, &(states, interval)) in told_entries.iter().enumerate() {
            let end = at + i64::from(interval);
            let change = if entry == 63 { begin + cycle } else { end };
            for instant in [at, end - 1] {
                let expected = (states, entry, (change - instant) as u64);
                assert_eq!(told(&bench, instant), expected, "entry {entry}");
            }
            at = end;
        }
    }
}

#[test]
fn past_the_last_interval_the_last_entry_holds() {
    let bench = running(&[(0x0F, 1), (0xF0, 1)], [1, 1]);
    assert_eq!(told(&bench, 0), (0x0F, 0, 1));
    for time in [1, 2, 3, 500_000_000, 999_999_998, 999_999_999] {
        let expected = (0xF0, 1, 1_000_000_000 - time as u64);
        assert_eq!(told(&bench, time), expected);
    }
    assert_eq!(told(&bench, 1_000_000_000), (0x0F, 0, 1));
    // A single entry is the first and the last.
    let bench = running(&[(0x55, 1)], [1, 1]);
    for (instant, left) in [(0, 1_000_000_000), (1, 999_999_999), (1_999_999_999, 1)] {
        assert_eq!(told(&bench, instant), (0x55, 0, left));
    }
}

#[test]
fn the_cycle_is_rounded_down() {
    // 1/3 s is 333,333,333 ns and a third; 2/3 s is nearer to the next nanosecond.
    for (cycle, nanoseconds) in [([1, 3], 333_333_333), ([2, 3], 666_666_666)] {
        let bench = running(&[(1, 1), (2, 1)], cycle);
        for round in [1, 2, 3, 1_000_000] {
            assert_eq!(told(&bench, round * nanoseconds - 1), (2, 1, 1));
            assert_eq!(told(&bench, round * nanoseconds), (1, 0, 1));
            assert_eq!(told(&bench, round * nanoseconds + 1).1, 1);
        }
    }
    // 3/2,000,000,000 s is one nanosecond and a half, 1/1,000,000,000 just one.
    for cycle in [[3, 2_000_000_000], [1, 1_000_000_000]] {
        let bench = running(&[(7, 1)], cycle);
        for instant in [0, 1, 2, 3, i64::MAX] {
            assert_eq!(told(&bench, instant), (7, 0, 1));
        }
    }
}

#[test]
fn intervals_of_every_size() {
    for interval in [1, 255, 256, 65_535, 65_536, 1 << 24, 1 << 31, u32::MAX] {
        let bench = running(&[(1, interval), (2, interval)], [10, 1]);
        let end = i64::from(interval);
        assert_eq!(told(&bench, 0), (1, 0, u64::from(interval)));
        assert_eq!(told(&bench, end - 1), (1, 0, 1));
        assert_eq!(told(&bench, end), (2, 1, 10_000_000_000 - end as u64));
    }
    // 64 of the longest, whose ends need more than 32 bits.
    let bench = running(&[(9, u32::MAX); 64], [300, 1]);
    for entry in 1..64 {
        let begin = entry as i64 * i64::from(u32::MAX);
        assert_eq!(told(&bench, begin - 1), (9, entry - 1, 1));
        assert_eq!(told(&bench, begin).1, entry);
    }
}

/// No cycle is longer: the range ends in its third round.
#[test]
fn the_longest_cycle() {
    let cycle = u64::from(u32::MAX) * 1_000_000_000;
    for list in [vec![(3, 1)], vec![(1, 1), (2, 2), (3, 1)]] {
        let bench = running(&list, [u32::MAX, 1]);
        let last = list.len() - 1;
        for begin in [0, cycle, 2 * cycle] {
            assert_eq!(told(&bench, begin as i64).1, 0);
            assert_eq!(told(&bench, begin as i64 + 3), (3, last, cycle - 3));
        }
        assert_eq!(told(&bench, cycle as i64 - 1), (3, last, 1));
        assert_eq!(told(&bench, 2 * cycle as i64 - 1), (3, last, 1));
        let left = 3 * cycle - i64::MAX as u64;
        assert_eq!(told(&bench, i64::MAX), (3, last, left));
    }
}

#[test]
fn a_change_counts_even_if_the_states_stay() {
    let bench = running(&[(8, 2), (8, 2), (8, 2)], [8, 1_000_000_000]);
    let expected = [
        (0, 2),
        (0, 1),
        (1, 2),
        (1, 1),
        (2, 4),
        (2, 3),
        (2, 2),
        (2, 1),
    ];
    for (instant, (entry, left)) in (0..).zip(expected.into_iter().chain(expected)) {
        assert_eq!(told(&bench, instant), (8, entry, left));
    }
}

#[test]
fn states_are_the_third_octet_of_an_entry() {
    let list = [
        [1, 5, 0, 0, 0, 0, 9],
        [2, 5, 0xFF, 0, 0, 0, 9],
        [0, 5, 5, 0, 0, 0, 9],
    ]
    .concat();
    let mut bench = Bench::fresh();
    bench.done(&sets(&schedule_of(list, [27, 1_000_000_000])));
    let told = [0, 9, 18].map(|instant| told(&bench, instant));
    assert_eq!(told, [(0, 0, 9), (0xFF, 1, 9), (5, 2, 9)]);
}

/// What runs is the block: not what its values have become since, nor what else memory holds.
#[test]
fn nothing_but_the_running_block_plays_a_part() {
    let mut bench = running(&[(0xFF, 4), (0x01, 3)], [1, 100_000_000]);
    let mut watch = |operations: &[u8]| {
        bench.done(operations);
        let told = [3, 4, 19, 20].map(|instant| told(&bench, instant));
        assert_eq!(told, [(0xFF, 0, 1), (1, 1, 6), (1, 1, 1), (0xFF, 0, 4)]);
        assert_eq!(bench.gates(-1), (0, None));
    };
    watch(&set(0x0003, &[1]));
    watch(&set(0x0003, &[0]));
    watch(&set(0x0004, &[0, 0, 0, 0, 0, 9, 0, 0, 0, 9]));
    watch(&set(0x0005, &[0, 0, 0, 64]));
    watch(&set(0x0006, &list(64, 1)));
    watch(&set(0x0007, &[0, 0, 0, 9, 0, 0, 0, 1]));
    watch(&set(0x8001, &[0; 4]));
    watch(&set(0x0006, &[]));
    watch(&subscribe(0x8001));
}

/// The base time is that of the instants, whatever it is.
#[test]
fn the_base_time_of_the_block_plays_no_part() {
    let mut values = schedule_of(entries(&[(0xFF, 4), (0x01, 3)]), [1, 100_000_000]);
    values[0].1 = vec![0xFF, 0xFF, 0xFF, 0xFF, 0xFF, 0xFF, 0x3B, 0x9A, 0xC9, 0xFF];
    let block: Vec<u8> = values[..4].iter().flat_map(|(_, v)| v.clone()).collect();
    values[4].1 = kit::sums(&block);
    let mut bench = Bench::fresh();
    bench.done(&sets(&values));
    assert_eq!(told(&bench, 3), (0xFF, 0, 1));
    assert_eq!(told(&bench, 4), (0x01, 1, 6));
    assert_eq!(bench.gates(-1), (0, None));
}
