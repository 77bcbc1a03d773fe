//! All that the port writes reads back as the records that it answered, and no message at all makes
//! the reader panic.

use crate::captures::read;
use kit::{command, list, schedule, sets, subscribe, valued, Bench, Chance, Reply};

/// Names of all sorts: listed and not.
const NAMES: [u16; 12] = [
    0x0001, 0x0002, 0x0003, 0x0005, 0x0006, 0x0042, 0x0061, 0x00A0, 0x00A1, 0x000B, 0x8001, 0xFFFF,
];

/// Any operations of a command, long ones and many included.
fn operations(chance: &mut Chance) -> Vec<u8> {
    let mut operations = Vec::new();
    for _ in 0..1 + chance.below(12) {
        let name = NAMES[chance.below(NAMES.len())];
        match chance.below(10) {
            0 => operations.push(1),
            1..=3 => operations.extend(kit::read(name)),
            4 => operations.extend(kit::set(0x0006, &list(chance.below(66), 9))),
            5 => operations.extend(kit::set(name, &vec![1; chance.below(300)])),
            6 => operations.extend(sets(&schedule(1 + chance.below(40), 10, [1, 1]))),
            7 => {
                let code = 6 + chance.below(4) as u8;
                operations.extend(valued(code, name, &vec![2; chance.below(300)]));
            }
            8 => operations.extend(kit::delete_entry(name, &[])),
            _ => operations.extend(kit::set(name, &[chance.below(3) as u8])),
        }
    }
    operations.truncate(2_045);
    operations
}

fn digits(octets: &[u8]) -> String {
    octets.iter().map(|octet| format!("{octet:02x}")).collect()
}

/// The words of a reply, as a reader finds them that shares nothing with the port.
fn expected(reply: &Reply) -> Vec<String> {
    let names = reply.capabilities.iter().flat_map(|names| names.chunks(2));
    let mut words = vec!["complete".to_string()];
    words.extend(names.map(|name| format!("name {}", digits(name))));
    let values = |kind: &str, values: &[(u16, Vec<u8>)]| -> Vec<String> {
        let word = |(name, value): &(u16, Vec<u8>)| format!("{kind} {name:04x} {}", digits(value));
        values.iter().map(word).collect()
    };
    let errors = |kind: &str, errors: &[(u16, u8)]| -> Vec<String> {
        let word = |(name, cause): &(u16, u8)| format!("{kind} {name:04x} {cause:02x}");
        errors.iter().map(word).collect()
    };
    words.extend(values("value", &reply.values));
    words.extend(errors("read-error", &reply.read_errors));
    words.extend(values("update", &reply.updates));
    words.extend(errors("update-error", &reply.update_errors));
    words.extend(values("long-update", &reply.long_updates));
    words
}

#[test]
fn replies_read_back() {
    let mut chance = Chance::new(31);
    let mut bench = Bench::fresh();
    let (mut done, mut kinds) = (0, [0; 6]);
    for _ in 0..5_000 {
        let (number, reply) = bench.send(&command(&operations(&mut chance)));
        if number != 0 {
            continue;
        }
        done += 1;
        let parsed = Reply::parse(&reply);
        assert_eq!(read(&reply), Ok(expected(&parsed)));
        let counts = [
            usize::from(parsed.capabilities.is_some()),
            parsed.values.len(),
            parsed.read_errors.len(),
            parsed.updates.len(),
            parsed.update_errors.len(),
            parsed.long_updates.len(),
        ];
        kinds = std::array::from_fn(|kind| kinds[kind] + counts[kind]);
    }
    assert!(done > 3_000, "{done} replies");
    assert!(kinds.iter().all(|count| *count > 500), "{kinds:?}");
}

#[test]
fn notifications_read_back() {
    let mut chance = Chance::new(32);
    // The names that the port sets, with the lengths of their values.
    let own = [
        (0x0001, 8),
        (0x0008, 4),
        (0x00A0, 1),
        (0x00A1, 255),
        (0x00A2, 1),
        (0x00A3, 20),
        (0x00A4, 2),
    ];
    for _ in 0..500 {
        let mut bench = Bench::fresh();
        let subscribed: Vec<u8> = own.iter().flat_map(|(name, _)| subscribe(*name)).collect();
        bench.done(&subscribed);
        let (mut values, mut errors) = (Vec::new(), Vec::new());
        for (name, length) in own {
            let value = vec![1 + chance.below(7) as u8; length];
            let choice = chance.below(3);
            if choice == 0 {
                continue;
            }
            assert_eq!(bench.local(name, &value), 0);
            if choice == 1 {
                values.push(format!("value {name:04x} {}", digits(&value)));
            } else {
                // Made absent again before it was told.
                assert_eq!(bench.local(name, &[]), 0);
                errors.push(format!("read-error {name:04x} 03"));
            }
        }
        let (number, notification) = bench.build();
        let records = [vec!["notify".to_string()], values, errors].concat();
        assert_eq!(number == 0, records.len() > 1);
        if number == 0 {
            assert_eq!(read(&notification), Ok(records));
        }
    }
}

#[test]
fn any_octets_are_read_or_refused() {
    let mut chance = Chance::new(33);
    let mut numbers = [0; 15];
    for _ in 0..100_000 {
        let length = [chance.below(5), chance.below(40), chance.below(300)][chance.below(3)];
        let mut message = chance.octets(length);
        let front = [2 + chance.below(2) as u8, 0x70 + chance.below(4) as u8, 0];
        let kept = chance.below(4).min(length);
        message[..kept].copy_from_slice(&front[..kept]);
        numbers[usize::from(read(&message).err().unwrap_or(0))] += 1;
    }
    for number in [0, 2, 13, 14] {
        assert!(numbers[number] > 1_000, "{numbers:?}");
    }
}

#[test]
fn a_changed_octet_is_read_or_refused_with_14() {
    let mut chance = Chance::new(34);
    let mut bench = Bench::fresh();
    let mut refused = 0;
    for _ in 0..20_000 {
        let (number, mut reply) = bench.send(&command(&operations(&mut chance)));
        if number != 0 || reply.len() == 1 {
            continue;
        }
        let place = 1 + chance.below(reply.len() - 1);
        reply[place] = reply[place].wrapping_add(1 + chance.below(255) as u8);
        match read(&reply) {
            Ok(_) => {}
            Err(number) => {
                assert_eq!(number, 14);
                refused += 1;
            }
        }
    }
    assert!(refused > 1_000, "{refused} refused");
}
