//! Value rules at their edges and one step off them, for sets, local values and commits.

use kit::{hex, list, read, schedule, set, sets, sums, Bench, Reply};

/// The cause of a set, 0 where it succeeds; then the value is read back.
fn cause(bench: &mut Bench, name: u16, value: &[u8]) -> u8 {
    let reply = Reply::parse(&bench.done(&set(name, value)));
    if let Some((failed, cause)) = reply.update_errors.first() {
        assert_eq!(*failed, name);
        return *cause;
    }
    let expected = vec![(name, value.to_vec())];
    let told = if value.len() > 255 {
        reply.long_updates
    } else {
        reply.updates
    };
    assert_eq!(told, expected);
    assert_eq!(Reply::parse(&bench.done(&read(name))).values, expected);
    assert!(bench.is_sound());
    0
}

fn check(name: u16, good: &[&str], bad: &[&str]) {
    let mut bench = Bench::fresh();
    for value in good {
        assert_eq!(
            cause(&mut bench, name, &hex(value)),
            0,
            "{name:04x} {value}"
        );
    }
    let before = bench.memory.clone();
    for value in bad {
        assert_eq!(
            cause(&mut bench, name, &hex(value)),
            2,
            "{name:04x} {value}"
        );
        assert!(bench.memory == before);
    }
}

#[test]
fn single_octets() {
    check(0x0003, &["00", "01"], &["", "02", "FF", "0000"]);
    check(0x0040, &["01", "04"], &["", "00", "05", "0101"]);
    check(0x0041, &["01", "07"], &["", "00", "08", "0101"]);
    check(0x0060, &["01", "07"], &["", "00", "08", "0101"]);
}

#[test]
fn base_time() {
    let good = ["FFFFFFFFFFFF 3B9AC9FF", "000000000000 00000000"];
    let bad = [
        "000000000000 3B9ACA00",
        "000000000000 FFFFFFFF",
        "0000000000 00000000",
    ];
    check(0x0004, &good, &bad);
    check(0x0004, &good, &["00000000000000 00000000", ""]);
}

#[test]
fn list_length() {
    check(
        0x0005,
        &["00000000", "00000040"],
        &["00000041", "01000000", "000040", "0000000040", ""],
    );
}

#[test]
fn cycle_time() {
    let good = ["00000000 00000001", "FFFFFFFF FFFFFFFF"];
    let bad = [
        "00000001 00000000",
        "00000001 000000",
        "00000001 0000000001",
        "",
    ];
    check(0x0007, &good, &bad);
}

#[test]
fn list_entries() {
    let good = [
        "",
        "00 05 00 00000001",
        "02 05 FF FFFFFFFF",
        "01 05 AA 00000001 00 05 00 00000001",
    ];
    let bad = [
        "03 05 00 00000001",
        "00 04 00 00000001",
        "00 06 00 00000001",
        "00 05 00 00000000",
        "00 05 00 000001",
        "00 05 00 00000001 00",
        "00 05 00 00000001 00 05 00 00000000",
        "00 05 00 00000000 00 05 00 00000001",
    ];
    check(0x0006, &good, &bad);
}

#[test]
fn list_sizes() {
    let mut bench = Bench::fresh();
    for count in [64, 0, 1, 36, 37, 63] {
        assert_eq!(cause(&mut bench, 0x0006, &list(count, 1)), 0);
    }
    for length in [1, 6, 8, 447, 449, 455] {
        let mut value = list(65, 1);
        value.truncate(length);
        assert_eq!(cause(&mut bench, 0x0006, &value), 2, "{length} octets");
    }
}

#[test]
fn ids_have_1_to_255_octets() {
    let mut bench = Bench::fresh();
    for name in [0x0042, 0x0061] {
        for length in [1, 255, 2] {
            assert_eq!(cause(&mut bench, name, &vec![9; length]), 0);
        }
        for length in [0, 256] {
            assert_eq!(cause(&mut bench, name, &vec![9; length]), 2);
        }
    }
}

#[test]
fn a_shorter_value_leaves_a_zero_tail() {
    let mut bench = Bench::fresh();
    bench.done(&set(0x0042, &[0xFF; 255]));
    bench.done(&set(0x0042, &[0xEE; 3]));
    // The room of 0042 starts after those of 000B (four octets from 599 on), 0040 and 0041.
    assert_eq!(bench.memory[605..608], [0xEE; 3]);
    assert!(bench.memory[608..860].iter().all(|octet| *octet == 0));
    assert_eq!(bench.local(0x00A1, &[0xFF; 255]), 0);
    assert_eq!(bench.local(0x00A1, &[]), 0);
    assert!(bench.is_sound());
}

#[test]
fn names_not_set_by_the_controller() {
    for name in [
        0x0001, 0x0008, 0x000B, 0x00A0, 0x00A1, 0x00A2, 0x00A3, 0x00A4,
    ] {
        assert_eq!(cause(&mut Bench::fresh(), name, &[1]), 0x6F);
    }
    for name in [
        0x0000, 0x0002, 0x0009, 0x00A5, 0x0103, 0x8000, 0x8002, 0xFFFF,
    ] {
        assert_eq!(cause(&mut Bench::fresh(), name, &[1]), 0x01);
    }
}

#[test]
fn local_values() {
    let lengths = [
        (0x0001, vec![8], vec![7, 9]),
        (0x0008, vec![4], vec![3, 5]),
        (0x00A1, vec![1, 255], vec![256]),
        (0x00A3, vec![1, 255], vec![256]),
        (0x00A4, vec![2], vec![1, 3]),
    ];
    for (name, good, bad) in lengths {
        for length in good {
            let mut bench = Bench::fresh();
            assert_eq!(bench.local(name, &vec![0xC3; length]), 0);
            let values = Reply::parse(&bench.done(&read(name))).values;
            assert_eq!(values, [(name, vec![0xC3; length])]);
        }
        for length in bad {
            assert_eq!(Bench::fresh().local(name, &vec![0xC3; length]), 12);
        }
    }
    for name in [0x00A0, 0x00A2] {
        for value in 0..=255 {
            let number = if (1..=7).contains(&value) { 0 } else { 12 };
            assert_eq!(Bench::fresh().local(name, &[value]), number);
        }
        assert_eq!(Bench::fresh().local(name, &[1, 1]), 12);
    }
}

#[test]
fn an_empty_local_value_makes_absent() {
    for name in [0x0001, 0x0008, 0x00A0, 0x00A1, 0x00A2, 0x00A3, 0x00A4] {
        let mut bench = Bench::fresh();
        let fresh = bench.memory.clone();
        let lengths = [8, 4, 1, 2];
        let length = lengths
            .into_iter()
            .find(|length| bench.local(name, &vec![1; *length]) == 0);
        assert!(length.is_some() && bench.memory != fresh);
        assert_eq!(bench.local(name, &[]), 0);
        assert!(bench.memory == fresh);
        let errors = Reply::parse(&bench.done(&read(name))).read_errors;
        assert_eq!(errors, [(name, 3)]);
    }
}

#[test]
fn a_commit_needs_all_four_values() {
    let values = schedule(2, 100, [1, 1_000]);
    for missing in 0..4 {
        let mut kept = values.to_vec();
        kept.remove(missing);
        let reply = Reply::parse(&Bench::fresh().done(&sets(&kept)));
        assert_eq!(reply.update_errors, [(0x8001, 2)]);
    }
}

#[test]
fn a_commit_needs_the_right_sums_in_four_octets() {
    let values = schedule(3, 1_000, [1, 1_000]);
    let right = &values[4].1;
    let mut bench = Bench::fresh();
    bench.done(&sets(&values[..4]));
    let mut wrong = vec![vec![], right[..3].to_vec(), [right, &[0][..]].concat()];
    for octet in 0..4 {
        for bit in 0..8 {
            let mut sums = right.clone();
            sums[octet] ^= 1 << bit;
            wrong.push(sums);
        }
    }
    for sums in wrong {
        assert_eq!(cause(&mut bench, 0x8001, &sums), 2);
    }
    assert_eq!(cause(&mut bench, 0x8001, right), 0);
}

#[test]
fn a_commit_needs_the_told_number_of_entries() {
    for (told, entries) in [(0, 0), (0, 1), (1, 0), (1, 2), (2, 1), (64, 63), (63, 64)] {
        let mut values = schedule(entries, 1, [1, 1]).to_vec();
        values[1].1 = u32::to_be_bytes(told).to_vec();
        values[4].1 = sums(
            &values[..4]
                .iter()
                .flat_map(|v| v.1.clone())
                .collect::<Vec<_>>(),
        );
        let reply = Reply::parse(&Bench::fresh().done(&sets(&values)));
        assert_eq!(
            reply.update_errors,
            [(0x8001, 2)],
            "{told} told, {entries} there"
        );
    }
}

#[test]
fn a_commit_needs_a_cycle_that_is_long_enough() {
    let fits = |count, interval, cycle| {
        let reply = Bench::fresh().done(&sets(&schedule(count, interval, cycle)));
        Reply::parse(&reply).update_errors.is_empty()
    };
    assert!(fits(1, 1_000_000, [1, 1_000]));
    assert!(!fits(1, 1_000_001, [1, 1_000]));
    // 10^9 / 3 is 333,333,333 and a third.
    assert!(fits(1, 333_333_333, [1, 3]));
    assert!(!fits(1, 333_333_334, [1, 3]));
    assert!(fits(64, u32::MAX, [275, 1]));
    assert!(!fits(64, u32::MAX, [274, 1]));
    assert!(!fits(1, 1, [0, 1]));
    assert!(!fits(1, 1, [1, u32::MAX]));
    assert!(fits(1, 1, [1, 1_000_000_000]));
    // Products with this denominator pass 64 bits.
    assert!(!fits(64, u32::MAX, [u32::MAX, u32::MAX]));
    assert!(fits(1, 1_000_000_000, [u32::MAX, u32::MAX]));
    assert!(!fits(1, 1_000_000_001, [u32::MAX, u32::MAX]));
}

#[test]
fn the_running_block_stays_when_its_values_change() {
    let mut bench = Bench::fresh();
    let first = schedule(2, 100, [1, 1_000]);
    let second = schedule(5, 100, [1, 1_000]);
    bench.done(&sets(&first));
    bench.done(&sets(&second[..4]));
    let told = |bench: &mut Bench| Reply::parse(&bench.done(&read(0x8001))).values.remove(0).1;
    assert_eq!(told(&mut bench), first[4].1);
    assert_eq!(cause(&mut bench, 0x8001, &first[4].1), 2);
    assert_eq!(told(&mut bench), first[4].1);
    assert_eq!(cause(&mut bench, 0x8001, &second[4].1), 0);
    assert_eq!(told(&mut bench), second[4].1);
}

#[test]
fn a_commit_takes_the_values_of_its_own_moment() {
    let mut bench = Bench::fresh();
    let first = schedule(40, 100, [1, 1_000]);
    let second = schedule(3, 200, [1, 500]);
    let operations = [sets(&first), read(0x8001), sets(&second[..4]), read(0x8001)].concat();
    let reply = Reply::parse(&bench.done(&operations));
    let running = (0x8001, first[4].1.clone());
    assert_eq!(reply.values, [running.clone(), running]);
    assert_eq!(reply.updates.len() + reply.long_updates.len(), 9);
    let block: Vec<u8> = first[..4]
        .iter()
        .flat_map(|(_, value)| value.clone())
        .collect();
    assert_eq!(bench.memory[1_630..1_630 + block.len()], block);
    assert_eq!(
        Reply::parse(&bench.done(&read(0x0006))).values,
        [second[2].clone()]
    );
    assert!(bench.is_sound());
}
