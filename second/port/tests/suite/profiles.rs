//! What differs between profile 02 and profile 03, each at its edges, and what does not.

use crate::sound::{place, room};
use crate::soundness::{full, waiting};
use kit::{command, hex, list, read, schedule, set, sets, subscribe, unsubscribe, valued};
use kit::{Bench, Reply};

/// Both, by their octets.
const BOTH: [u8; 2] = [2, 3];
/// The names in table order.
const NAMES: [u16; 19] = [
    0x0001, 0x0003, 0x0004, 0x0005, 0x0006, 0x0007, 0x0008, 0x000B, 0x0040, 0x0041, 0x0042, 0x0060,
    0x0061, 0x00A0, 0x00A1, 0x00A2, 0x00A3, 0x00A4, 0x8001,
];
/// Those that a controller sets.
const SET_BY_CONTROLLER: [u16; 11] = [
    0x0003, 0x0004, 0x0005, 0x0006, 0x0007, 0x0040, 0x0041, 0x0042, 0x0060, 0x0061, 0x8001,
];

/// The cause of one set on fresh memory, 0 where it succeeds.
fn cause(profile: u8, name: u16, value: &[u8]) -> u8 {
    let mut bench = Bench::fresh_of(profile);
    let before = bench.memory.clone();
    let reply = Reply::parse(&bench.done(&set(name, value)));
    let failed = reply.update_errors.first().copied();
    assert!(failed.is_none() || bench.memory == before);
    failed.map_or(0, |(of, cause)| {
        assert_eq!(of, name);
        cause
    })
}

/// The values of a schedule as controllers of a profile set them.
fn schedule_of(profile: u8, count: usize) -> [(u16, Vec<u8>); 5] {
    let mut values = schedule(count, 9, [1, 1_000]);
    if profile == 3 {
        values[1].1.drain(..2);
    }
    values
}

#[test]
fn fresh_memory_is_made_for_each_octet_or_refused() {
    let fresh = Bench::fresh().memory;
    for memory in [full().memory, waiting().memory, vec![0xEE; 2_100]] {
        for (octet, first) in (0..=255).flat_map(|o| [0, 2, 3, 0xFF].map(|first| (o, first))) {
            let mut bench = Bench::of(memory.clone()).with_profile(first);
            let number = bench.make_fresh_of(octet);
            if BOTH.contains(&octet) {
                assert_eq!((number, bench.first), (0, Some(octet)));
                assert!(bench.memory == fresh);
            } else {
                assert_eq!((number, bench.first), (18, Some(first)));
                assert!(bench.memory == memory);
            }
        }
    }
    for length in [0, 1, 2_100, 2_102] {
        for octet in 0..=255 {
            assert_eq!(Bench::lend(&vec![3; length]).make_fresh_of(octet), 1);
        }
    }
}

#[test]
fn capabilities_leave_out_what_is_not_listed() {
    for profile in BOTH {
        let reply = Bench::fresh_of(profile).done(&[1, 1]);
        let listed = NAMES.iter().filter(|n| profile == 2 || **n != 0x000B);
        let names: Vec<u8> = listed.flat_map(|name| name.to_be_bytes()).collect();
        let length = [0, 38 - 2 * (profile - 2)];
        assert_eq!(reply, [&[2, 0x70], &length[..], &names].concat());
        // The reply just fits its room.
        let mut bench = Bench::fresh_of(profile);
        assert_eq!(bench.send_into(&command(&[1]), reply.len() - 1).0, 7);
        assert_eq!(bench.send_into(&command(&[1]), reply.len()).1, reply);
    }
}

#[test]
fn the_list_length_has_two_octets_or_four() {
    let values = [
        ("", 2, 2),
        ("07", 2, 2),
        ("0000", 2, 0),
        ("0024", 2, 0),
        ("0040", 2, 0),
        ("0041", 2, 2),
        ("0100", 2, 2),
        ("0140", 2, 2),
        ("4000", 2, 2),
        ("FFFF", 2, 2),
        ("000007", 2, 2),
        ("00000007", 0, 2),
        ("00000040", 0, 2),
        ("00000041", 2, 2),
        ("0000000007", 2, 2),
    ];
    for (value, in_02, in_03) in values {
        let causes = BOTH.map(|profile| cause(profile, 0x0005, &hex(value)));
        assert_eq!(causes, [in_02, in_03], "{value}");
    }
}

#[test]
fn memory_keeps_four_octets_of_the_list_length() {
    for number in 0..=64_u16 {
        let told = number.to_be_bytes();
        let mut bench = Bench::fresh_of(3);
        let reply = bench.done(&[set(0x0005, &told), read(0x0005)].concat());
        let [value, update] = [reply.clone(), reply].map(|reply| Reply::parse(&reply));
        assert_eq!(value.values, [(0x0005, told.to_vec())]);
        assert_eq!(update.updates, [(0x0005, told.to_vec())]);
        let again = Reply::parse(&bench.done(&read(0x0005)));
        assert_eq!(again.values, value.values);
        let (cell, (start, _)) = (6 * place(0x0005), room(place(0x0005)));
        assert_eq!(bench.memory[cell..cell + 6], hex("0005 01 00 0004"));
        assert_eq!(
            bench.memory[start..start + 4],
            u32::from(number).to_be_bytes()
        );
        // The same memory is told with four octets in the other profile.
        let told = Reply::parse(&bench.with_profile(2).done(&read(0x0005)));
        let four = u32::from(number).to_be_bytes().to_vec();
        assert_eq!(told.values, [(0x0005, four)]);
    }
}

#[test]
fn what_is_not_listed_is_unknown_in_each_operation() {
    let mut bench = Bench::fresh_of(3);
    let fresh = bench.memory.clone();
    for value in [&[][..], &[0, 0, 0, 64], &[1; 255], &[1; 256], &[1; 2_000]] {
        let reply = Reply::parse(&bench.done(&set(0x000B, value)));
        assert_eq!(reply.update_errors, [(0x000B, 1)]);
        assert_eq!(bench.local(0x000B, value), 12);
    }
    let reply = Reply::parse(&bench.done(&read(0x000B)));
    assert_eq!(reply.read_errors, [(0x000B, 1)]);
    assert_eq!(bench.done(&subscribe(0x000B)), [2]);
    assert_eq!(bench.done(&unsubscribe(0x000B)), [2]);
    let marks = [
        subscribe(0x000B),
        unsubscribe(0x000B),
        subscribe(0x000B),
        subscribe(0x0008),
    ];
    assert_eq!(bench.done(&marks.concat()), [2]);
    assert_eq!(bench.memory[6 * place(0x000B) + 2], 1);
    bench.done(&unsubscribe(0x0008));
    assert!(bench.memory == fresh);
    // In the other profile it is a name as any, that nobody sets.
    let mut bench = Bench::fresh();
    let reply = bench.done(&[set(0x000B, &[0, 0, 0, 64]), read(0x000B)].concat());
    let reply = Reply::parse(&reply);
    assert_eq!(reply.update_errors, [(0x000B, 0x6F)]);
    assert_eq!(reply.values, [(0x000B, vec![0, 0, 0, 64])]);
    bench.done(&subscribe(0x000B));
    assert_eq!(bench.memory[6 * place(0x000B) + 2], 3);
    assert!(!bench.with_profile(3).is_sound());
}

#[test]
fn codes_6_to_9_break_a_command_where_they_stand() {
    for code in 1..=12 {
        let operation = match code {
            1 => vec![1],
            2 | 4 | 5 => hex(&format!("{code:02x} 0003")),
            _ => valued(code, 0x0003, &[1]),
        };
        for before in [vec![], read(0x0003), set(0x0061, &[7; 200])] {
            let list = [&before[..], &operation, &read(0x0002)].concat();
            for profile in BOTH {
                let known = code <= if profile == 3 { 5 } else { 9 };
                let expected = if known { (0, 0) } else { (6, 3 + before.len()) };
                let told = Bench::fresh_of(profile).position(&command(&list));
                assert_eq!(told, expected, "{code} in {profile}");
            }
        }
    }
    // They break it before any other thing is found wrong, and nothing is done of it.
    let mut bench = Bench::fresh_of(3);
    let list = [set(0x0003, &[1]), valued(6, 0x0003, &[])].concat();
    assert_eq!(bench.position(&command(&list)), (6, 9));
    assert_eq!(bench.send_into(&command(&list), 0).0, 6);
    assert!(bench.memory == Bench::fresh().memory);
}

#[test]
fn a_set_of_more_than_255_octets_is_not_done() {
    for name in NAMES.into_iter().chain([0x0002, 0x800B]) {
        for length in [255, 256, 257, 300, 2_000] {
            let value = vec![1; length];
            let settable = SET_BY_CONTROLLER.contains(&name);
            let takes_255 = [0x0042, 0x0061].contains(&name) && length == 255;
            let in_02 = match () {
                () if !NAMES.contains(&name) => 1,
                () if !settable => 0x6F,
                () if takes_255 => 0,
                () => 2,
            };
            let in_03 = match () {
                () if !NAMES.contains(&name) || name == 0x000B => 1,
                () if !settable || length > 255 => 0x6F,
                () if takes_255 => 0,
                () => 2,
            };
            let causes = BOTH.map(|profile| cause(profile, name, &value));
            assert_eq!(causes, [in_02, in_03], "{name:04x} of {length}");
        }
    }
}

#[test]
fn lists_have_36_entries_at_most() {
    for count in [0, 1, 35, 36, 37, 63, 64, 65] {
        let causes = BOTH.map(|profile| cause(profile, 0x0006, &list(count, 5)));
        let in_02 = if count > 64 { 2 } else { 0 };
        let in_03 = if count > 36 { 0x6F } else { 0 };
        assert_eq!(causes, [in_02, in_03], "{count} entries");
    }
    // Of 253 to 255 octets there is no list, and one that is too long is not looked at.
    let entries = list(37, 5);
    for length in [251, 253, 254, 255] {
        let causes = BOTH.map(|profile| cause(profile, 0x0006, &entries[..length]));
        assert_eq!(causes, [2, 2], "{length} octets");
    }
    for length in [256, 258] {
        let causes = BOTH.map(|profile| cause(profile, 0x0006, &entries[..length]));
        assert_eq!(causes, [2, 0x6F], "{length} octets");
    }
    assert_eq!(BOTH.map(|p| cause(p, 0x0006, &[3; 259])), [2, 0x6F]);
}

#[test]
fn a_set_that_is_too_long_leaves_those_beside_it() {
    let mut bench = Bench::fresh_of(3);
    let operations = [
        set(0x0006, &list(2, 5)),
        set(0x0006, &list(37, 5)),
        set(0x0003, &[1]),
        set(0x0042, &[1; 256]),
        read(0x0006),
    ];
    let reply = Reply::parse(&bench.done(&operations.concat()));
    assert_eq!(
        reply.updates,
        [(0x0006, list(2, 5)), (0x0003, vec![1])].to_vec()
    );
    assert_eq!(reply.update_errors, [(0x0006, 0x6F), (0x0042, 0x6F)]);
    assert!(reply.long_updates.is_empty());
    assert_eq!(reply.values, [(0x0006, list(2, 5))]);
}

#[test]
fn an_absent_value_is_told_as_each_profile_has_it() {
    for (profile, absent) in [(2, 3), (3, 0x6F)] {
        let mut bench = Bench::fresh_of(profile);
        for name in NAMES {
            let reply = Reply::parse(&bench.done(&read(name)));
            let expected = match name {
                0x0003 => vec![],
                0x000B if profile == 2 => vec![],
                0x000B => vec![(name, 1)],
                _ => vec![(name, absent)],
            };
            assert_eq!(reply.read_errors, expected, "{name:04x}");
        }
        let reply = Reply::parse(&bench.done(&read(0x0002)));
        assert_eq!(reply.read_errors, [(0x0002, 1)]);
        bench.done(&[subscribe(0x00A1), subscribe(0x00A4)].concat());
        assert_eq!(bench.local(0x00A1, &[1]), 0);
        assert_eq!(bench.local(0x00A1, &[]), 0);
        assert_eq!(bench.local(0x00A4, &[0, 0x78]), 0);
        let told = [hex("03 000B 01 00A4 0002 0078 01 00A1"), vec![absent]].concat();
        assert_eq!(bench.build(), (0, told.clone()));
        for number in [20, 20, 20, 20, 21] {
            assert_eq!(bench.expire(), number);
        }
        assert_eq!(bench.build(), (0, told));
        assert_eq!(bench.send(&[4]), (0, vec![5]));
        assert_eq!(bench.first, Some(profile));
    }
}

#[test]
fn schedules_are_committed_up_to_the_longest() {
    for profile in BOTH {
        for count in [1, 2, 35, 36, 37, 64] {
            let mut bench = Bench::fresh_of(profile);
            let values = schedule_of(profile, count);
            let reply = Reply::parse(&bench.done(&sets(&values)));
            let done = profile == 2 || count <= 36;
            let commits = reply.updates.iter().filter(|u| u.0 == 0x8001).count();
            assert_eq!(commits, usize::from(done), "{count} in {profile}");
            if !done {
                assert_eq!(reply.update_errors, [(0x0006, 0x6F), (0x8001, 2)]);
                assert_eq!(bench.gates(0), (15, None));
                continue;
            }
            // The block has four octets of the length, and the sums are over them.
            let block: Vec<u8> = schedule(count, 9, [1, 1_000])[..4]
                .iter()
                .flat_map(|(_, value)| value.clone())
                .collect();
            let (start, _) = room(place(0x8001));
            assert_eq!(bench.memory[start..start + block.len()], block);
            assert_eq!(bench.gates(9 * count as i64 - 1).1.unwrap().1, count - 1);
            let sums = Reply::parse(&bench.done(&read(0x8001))).values;
            assert_eq!(sums, [(0x8001, values[4].1.clone())]);
        }
    }
}

#[test]
fn sums_over_what_is_sent_are_wrong() {
    let mut bench = Bench::fresh_of(3);
    let mut values = schedule_of(3, 5);
    // With a first sum of 0 two octets 00 more would change nothing.
    values[0].1[5] = 7;
    let joined = |values: &[(u16, Vec<u8>)]| -> Vec<u8> {
        let values = values[..4].iter();
        values.flat_map(|(_, value)| value.clone()).collect()
    };
    values[4].1 = kit::sums(&joined(&values));
    let reply = Reply::parse(&bench.done(&sets(&values)));
    assert_eq!(reply.update_errors, [(0x8001, 2)]);
    // A commit in a later command is over the same four octets as one in the same command.
    values[1].1 = vec![0, 0, 0, 5];
    let right = kit::sums(&joined(&values));
    let reply = Reply::parse(&bench.done(&set(0x8001, &right)));
    assert_eq!(reply.updates, [(0x8001, right)]);
}

#[test]
fn back_is_refused_between_the_room_and_what_is_in_flight() {
    let numbers = |bench: &Bench| [0, 2_099, 2_101, 2_100].map(|room| bench.back(room).0);
    for profile in BOTH {
        let idle = full().with_profile(profile);
        let out = waiting().with_profile(profile);
        assert!(idle.is_sound() && out.is_sound());
        let [on_idle, on_out] = if profile == 3 { [19, 19] } else { [0, 17] };
        assert_eq!(numbers(&idle), [16, 16, 16, on_idle]);
        assert_eq!(numbers(&out), [16, 16, 16, on_out]);
        let mut unsound = out.clone();
        unsound.memory[3] = 1;
        assert_eq!(numbers(&unsound), [1; 4]);
        // What both have behind the first octet can be moved forward, and is of profile 02 then.
        let old = Bench::lend(&idle.memory);
        assert_eq!(old.forward(2_101).1, [&[2], &idle.memory[..]].concat());
    }
    let mut marked = full();
    marked.done(&subscribe(0x000B));
    assert_eq!(numbers(&marked), [16, 16, 16, 0]);
    assert_eq!(numbers(&marked.with_profile(3)), [1; 4]);
}
