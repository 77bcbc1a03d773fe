//! Where a command touches nothing that differs between the profiles, both answer it alike.

use crate::cut_law::{random_operations, starts_of_release_16};
use kit::{command, Chance, Reply};

/// Whether an operation touches what differs, whatever memory holds.
fn differs(operation: &[u8]) -> bool {
    match operation {
        [2..=5, 0, 0x05 | 0x0B, ..] => true,
        [3, _, _, high, ..] => *high > 0,
        [2 | 4 | 5, ..] => false,
        _ => true,
    }
}

#[test]
fn commands_that_touch_no_difference_are_answered_alike() {
    let mut chance = Chance::new(24);
    let starts = starts_of_release_16();
    let (mut alike, mut refused, mut updates) = (0, 0, 0);
    for _ in 0..12_000 {
        let mut operations = random_operations(&mut chance);
        operations.retain(|operation| !differs(operation));
        let mut sixteen = starts[chance.below(starts.len())].clone();
        let mut eighteen = sixteen.with_profile(2);
        let sent = command(&operations.concat());
        let room = [40, 4_096][chance.below(2)];
        let (number, reply) = eighteen.send_into(&sent, room);
        let absent = number == 0 && Reply::parse(&reply).read_errors.iter().any(|e| e.1 == 3);
        if absent {
            continue;
        }
        let answer = sixteen.send_into(&sent, room);
        assert_eq!((number, &reply), (answer.0, &answer.1));
        assert!(eighteen.memory == sixteen.memory);
        assert_eq!((eighteen.first, sixteen.first), (Some(2), Some(3)));
        alike += usize::from(number == 0);
        refused += usize::from(number != 0);
        updates += if number == 0 {
            Reply::parse(&reply).updates.len()
        } else {
            0
        };
    }
    assert!(alike > 3_000, "{alike} were answered alike");
    assert!(refused > 300, "{refused} were refused alike");
    assert!(updates > 3_000, "{updates} values were set");
}
