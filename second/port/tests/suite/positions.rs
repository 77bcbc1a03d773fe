//! Where a command breaks: number 6 tells the position of the first operation that cannot be read,
//! and every other answer position 0.

use kit::{command, hex, list, operations_by_clauses, position_by_clauses, read, schedule, set};
use kit::{sets, subscribe, unsubscribe, valued, Bench, Chance};

/// Where the first operation of a command stands.
const FIRST: usize = 3;

/// What the port gives for a message: none where it is not number 6.
fn by_port(message: &[u8]) -> Option<usize> {
    let (number, position) = Bench::fresh().position(message);
    (number == 6).then_some(position)
}

/// Operations of each code; the last has a long value.
fn each_code() -> [Vec<u8>; 10] {
    [
        vec![1],
        read(0x0003),
        set(0x0003, &[1]),
        subscribe(0x00A4),
        unsubscribe(0x00A4),
        valued(6, 0x0003, &[]),
        valued(7, 0x00A4, &[0, 1]),
        valued(8, 0xFFFF, &[6]),
        valued(9, 0x0006, &list(40, 1)),
        set(0x0006, &list(64, 1)),
    ]
}

/// Operations that cannot be read where nothing of the list is behind them: an unknown code, a name
/// that is absent or half there, a length that is, and a value that is or that lacks one octet.
fn broken() -> Vec<Vec<u8>> {
    let texts = "00|0A|0A 0003 0000|FF 0003|02|02 00|04|04 00|05|05 00";
    let mut broken: Vec<Vec<u8>> = texts.split('|').map(hex).collect();
    let valued = "|00|0003|0003 00|0003 0001|0042 0003 0101|0003 FFFF 01";
    for code in [3, 6, 7, 8, 9] {
        let cut_short = valued
            .split('|')
            .map(|rest| [vec![code], hex(rest)].concat());
        broken.extend(cut_short);
    }
    broken
}

/// A random list of operations, most of them readable, and then damaged.
fn damaged(chance: &mut Chance) -> Vec<u8> {
    let mut list = Vec::new();
    for _ in 0..1 + chance.below(7) {
        let name = [0x0003, 0x0042, chance.below(65_536) as u16][chance.below(3)];
        let length = chance.below(9);
        list.extend(match chance.below(8) {
            0 => vec![1],
            1 => read(name),
            2 => subscribe(name),
            3 => unsubscribe(name),
            4..=5 => valued(6 + chance.below(4) as u8, name, &chance.octets(length)),
            _ => set(name, &chance.octets(length)),
        });
    }
    for _ in 0..chance.below(4) {
        let at = chance.below(list.len());
        list[at] = [chance.octet(), chance.below(12) as u8][chance.below(2)];
    }
    list.truncate(list.len() - chance.below(2) * chance.below(list.len()));
    list
}

#[test]
fn the_first_operation_stands_at_position_3() {
    for operation in broken() {
        assert_eq!(by_port(&command(&operation)), Some(3), "{operation:02x?}");
    }
    assert_eq!(by_port(&hex("01 0001 0A")), Some(3));
    assert_eq!(by_port(&hex("01 0006 03 0003 0002 01")), Some(3));
}

/// The messages of RULES 15.30.
#[test]
fn the_examples_of_the_rules() {
    let examples = [
        ("01 0007 02 0003 04 00A4 0A", 9),
        ("01 0006 01 03 0003 0005", 4),
        ("01 0002 02 00 03", 3),
    ];
    for (message, position) in examples {
        assert_eq!(by_port(&hex(message)), Some(position), "{message}");
    }
}

#[test]
fn every_unknown_code_is_told_in_its_place() {
    for code in (0..=255).filter(|code| !(1..=9).contains(code)) {
        let operations = [read(0x0003), vec![code], subscribe(0x0001)].concat();
        assert_eq!(by_port(&command(&operations)), Some(6), "{code:02x}");
    }
}

#[test]
fn what_stands_before_is_counted_in_octets() {
    for before in each_code() {
        for count in [1, 2, 3] {
            for last in broken() {
                let operations = [before.repeat(count), last].concat();
                let position = FIRST + count * before.len();
                assert_eq!(by_port(&command(&operations)), Some(position));
            }
        }
    }
    let all = each_code().concat();
    let octets = 1 + 3 + 6 + 3 + 3 + 5 + 7 + 6 + 285 + 453;
    assert_eq!(
        by_port(&command(&[all, vec![0]].concat())),
        Some(FIRST + octets)
    );
}

#[test]
fn what_stands_behind_changes_no_position() {
    for operation in broken() {
        for behind in each_code() {
            let mut message = command(&[read(0x0003), operation.clone()].concat());
            // Behind the L octets.
            message.extend(&behind);
            assert_eq!(by_port(&message), Some(6), "{message:02x?}");
        }
    }
    // Among them, and broken as well.
    for text in [
        "0A 0A",
        "0A 02",
        "03 0003 FFFF 0A",
        "06 0003 FFFF 0A",
        "00 03 0003 FFFF",
        "0A 01 02 0003 0A",
        "09 0003 0005 0A 0A",
    ] {
        let operations = [read(0x0003), hex(text)].concat();
        assert_eq!(by_port(&command(&operations)), Some(6), "{text}");
    }
}

#[test]
fn a_code_within_a_value_or_a_name_is_no_operation() {
    let operations = [set(0x0042, &[0; 40]), read(0x0A0A), subscribe(0xFFFF)].concat();
    assert_eq!(by_port(&command(&operations)), None);
    let operations = [operations, vec![2]].concat();
    assert_eq!(by_port(&command(&operations)), Some(3 + 45 + 6));
}

#[test]
fn the_last_octet_of_the_longest_command() {
    for (operation, count) in [
        (read(0x0003), 681),
        (vec![1], 2_044),
        (set(0x0042, &[7; 68]), 28),
    ] {
        let operations = [
            operation.repeat(count),
            vec![0; 2_044 - count * operation.len()],
        ]
        .concat();
        let position = FIRST + count * operation.len();
        for last in [0, 2, 6, 7, 8, 9, 10] {
            let message = command(&[&operations[..], &[last]].concat());
            assert_eq!(message.len(), 2_048);
            assert_eq!(by_port(&message), Some(position));
            // One octet more is too much for any position.
            let message = [message, vec![0]].concat();
            assert_eq!(Bench::fresh().position(&message), (3, 0));
        }
    }
    assert_eq!(
        by_port(&command(&[&[1; 2_044][..], &[0]].concat())),
        Some(2_047)
    );
}

#[test]
fn every_other_number_has_position_0() {
    let mut unsound = Bench::fresh();
    unsound.memory[3] = 1;
    let broken = command(&[read(0x0003), vec![10]].concat());
    assert_eq!(unsound.position(&broken), (1, 0));
    assert_eq!(Bench::of(vec![0; 2_099]).position(&broken), (1, 0));
    let too_long = [broken, vec![0; 2_048]].concat();
    let many = command(&read(0x0003).repeat(256));
    let messages: [(&[u8], u8); 9] = [
        (&[], 2),
        (&too_long, 3),
        (&[2, 0, 1, 10], 4),
        (&[1, 0], 5),
        (&[1, 0, 0, 10], 5),
        (&[1, 0, 2, 10], 5),
        (&many, 7),
        (&[4, 0, 1, 10], 8),
        (&[1, 0, 3, 2, 0, 3], 0),
    ];
    for (message, number) in messages {
        assert_eq!(Bench::fresh().position(message), (number, 0));
    }
}

/// A call that takes no message.
type Call = fn(&mut [u8], &mut [u8]) -> port::Answer;

#[test]
fn every_other_call_has_position_0() {
    let calls: [Call; 6] = [
        |memory, _| port::make_fresh(memory, 2),
        |memory, _| port::take_local_value(memory, 0x0003, &[1]),
        |memory, _| port::take_local_value(memory, 0x00A4, &[0, 1]),
        |memory, _| port::build_notification(memory, &mut []),
        port::build_notification,
        |memory, _| port::take_expiry(memory),
    ];
    let mut room = [0; 4_096];
    for length in [2_101, 2_100] {
        for call in calls {
            // Right before it a command breaks, or would on sound memory.
            let mut memory = Bench::fresh().lent();
            memory.truncate(length);
            port::take_message(&mut memory, &command(&[10]), &mut room);
            assert_eq!(call(&mut memory, &mut room).position, 0);
        }
    }
}

#[test]
fn what_the_clauses_give_is_found() {
    for (list, position) in [
        ("01", None),
        ("02 0003 03 0003 0001 01 04 0001 05 0001 01", None),
        ("03 0042 0003 060606 01", None),
        (
            "06 0003 0000 07 FFFF 0001 01 08 0000 0000 09 0006 0002 0A0A",
            None,
        ),
        ("06", Some(3)),
        ("0A 0003 0000", Some(3)),
        ("01 09 0003 0001", Some(4)),
        ("02", Some(3)),
        ("01 02 00", Some(4)),
        ("02 0003 03 0003 0002 01", Some(6)),
        ("03 0042 0003 060606 0A 0A", Some(11)),
    ] {
        assert_eq!(position_by_clauses(2, &hex(list)), position, "{list}");
    }
    let list = hex("02 0003 09 0006 0002 0A0A 01 08 0003");
    let whole = ["02 0003", "09 0006 0002 0A0A", "01"].map(hex);
    assert_eq!(operations_by_clauses(2, &list), whole);
}

#[test]
fn damaged_commands_break_where_the_clauses_say() {
    let mut chance = Chance::new(21);
    let (mut rounds, mut far) = (0, 0);
    while rounds < 30_000 {
        let list = damaged(&mut chance);
        let expected = position_by_clauses(2, &list);
        assert_eq!(by_port(&command(&list)), expected, "{list:02x?}");
        rounds += usize::from(expected.is_some());
        far += usize::from(expected.is_some_and(|position| position > FIRST));
    }
    assert!(
        (rounds / 4..rounds * 3 / 4).contains(&far),
        "{far} are not the first"
    );
}

#[test]
fn a_long_command_breaks_where_the_clauses_say() {
    let mut chance = Chance::new(22);
    let good = sets(&schedule(60, 10, [1, 1_000]));
    let mut beyond = 0;
    for _ in 0..300 {
        let mut list = good.clone();
        for _ in 0..1 + chance.below(4) {
            let at = chance.below(list.len());
            list[at] = chance.octet();
        }
        list.truncate(list.len() - chance.below(2) * chance.below(20));
        let expected = position_by_clauses(2, &list);
        assert_eq!(by_port(&command(&list)), expected, "{list:02x?}");
        beyond += usize::from(expected.is_some_and(|position| position > 255));
    }
    assert!(beyond > 20, "{beyond} beyond 255");
}

/// The position parts a list by what the port itself says: before it all is readable, and with any
/// octets from it on it breaks there again.
#[test]
fn a_command_breaks_at_its_position_however_short_it_is_cut() {
    let mut chance = Chance::new(23);
    let mut broken = 0;
    while broken < 500 {
        let list = damaged(&mut chance);
        let Some(position) = by_port(&command(&list)) else {
            continue;
        };
        broken += 1;
        let before = position - FIRST;
        if before > 0 {
            assert_eq!(by_port(&command(&list[..before])), None);
        }
        for end in before + 1..list.len() {
            assert_eq!(by_port(&command(&list[..end])), Some(position));
        }
    }
}
