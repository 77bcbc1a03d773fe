//! The moves of memory from the old form to form B and back: their numbers, what they write, and what
//! becomes of a port that is moved while it waits.

use crate::sound::place;
use crate::soundness::{full, memories, waiting};
use kit::{command, hex, read, subscribe, unsubscribe, Bench, FILL};
use port::{move_back, move_forward, Answer};

/// Octets of the old form, and of form B.
const OLD: usize = 2_100;
const NEW: usize = 2_101;

/// Lengths of rooms that are right for no move.
const WRONG_ROOMS: [usize; 9] = [0, 1, 1_600, 2_098, 2_099, 2_102, 2_103, 4_096, 8_192];

/// Memory in which nothing is in flight: idle, and waiting after so many expiries with pending cells.
fn old_memories() -> Vec<Vec<u8>> {
    let idle = [Bench::fresh().memory, full().memory];
    let waits = idle.iter().flat_map(|memory| {
        (0..5).map(|expiries| {
            let mut memory = memory.clone();
            memory[114..116].copy_from_slice(&[1, expiries]);
            memory
        })
    });
    idle.iter().cloned().chain(waits).collect()
}

/// What forward makes of memory, on which calls can be made.
fn forwarded(memory: &[u8]) -> Bench {
    let (number, written) = Bench::lend(memory).forward(NEW);
    assert_eq!(number, 0);
    Bench::lend(&written)
}

/// The flags of the cell at a place.
fn flags_at(place: usize) -> usize {
    6 * place + 2
}

#[test]
fn the_example_of_the_rules() {
    let old = Bench::fresh().memory;
    assert_eq!(old[..6], hex("0001 00 00 0000"));
    let (number, written) = Bench::lend(&old).forward(NEW);
    assert_eq!((number, written.len()), (0, NEW));
    assert_eq!(written[..7], hex("02 0001 00 00 0000"));
    // Neither form begins so.
    let mut bench = Bench::lend(&[&[1], &old[..]].concat());
    assert_eq!(bench.send(&command(&read(0x0003))).0, 1);
    assert_eq!(bench.local(0x00A4, &[0, 1]), 1);
    assert_eq!([bench.build().0, bench.expire(), bench.gates(0).0], [1; 3]);
    assert_eq!([bench.forward(NEW).0, bench.back(OLD).0], [1; 2]);
    assert_eq!(bench.make_fresh(), 0);
}

#[test]
fn forward_writes_02_and_the_memory() {
    for memory in old_memories() {
        let written = [&[2], &memory[..]].concat();
        assert_eq!(Bench::lend(&memory).forward(NEW), (0, written));
    }
}

#[test]
fn back_writes_what_is_behind_the_first_octet() {
    for memory in old_memories() {
        assert_eq!(Bench::of(memory.clone()).back(OLD), (0, memory));
    }
}

/// What one writes the other gives back.
#[test]
fn forward_and_back_undo_each_other() {
    for memory in old_memories() {
        let there = forwarded(&memory);
        assert_eq!(there.back(OLD), (0, memory.clone()));
        assert!(forwarded(&there.back(OLD).1).lent() == there.lent());
    }
}

/// A flag in flight, on each name of the port, is none of the old form, waiting or idle.
#[test]
fn the_old_form_has_nothing_in_flight() {
    for expiries in 0..5 {
        for name in [0x0001, 0x0008, 0x00A0, 0x00A1, 0x00A2, 0x00A3, 0x00A4] {
            for beside in [2, 6] {
                let mut memory = full().memory;
                memory[114..116].copy_from_slice(&[1, expiries]);
                let flags = &mut memory[flags_at(place(name))];
                *flags = beside | *flags & 1;
                assert_eq!(Bench::lend(&memory).forward(NEW).0, 0);
                assert_eq!(Bench::of(memory.clone()).back(OLD).0, 0);
                memory[flags_at(place(name))] |= 8;
                assert_eq!(Bench::lend(&memory).forward(NEW).0, 1);
                assert_eq!(Bench::of(memory.clone()).back(OLD).0, 17);
                memory[114..116].fill(0);
                assert_eq!(Bench::lend(&memory).forward(NEW).0, 1);
                assert_eq!(Bench::of(memory).back(OLD).0, 1);
            }
        }
    }
}

#[test]
fn a_move_wants_a_room_of_exactly_what_it_writes() {
    for memory in old_memories() {
        let [old, new] = [Bench::lend(&memory), Bench::of(memory)];
        for room in WRONG_ROOMS {
            assert_eq!(old.forward(room), (16, vec![]), "room of {room}");
            assert_eq!(new.back(room), (16, vec![]), "room of {room}");
        }
        assert_eq!([old.forward(NEW).0, new.back(OLD).0], [0, 0]);
        assert_eq!([old.forward(OLD).0, new.back(NEW).0], [16, 16]);
    }
}

/// 1 before 16, and 16 before 17, which comes of nothing but what is in flight.
#[test]
fn the_number_of_a_move_is_the_first_of_its_table() {
    let waiting = waiting();
    assert_eq!(waiting.back(OLD), (17, vec![]));
    for room in WRONG_ROOMS.into_iter().chain([NEW]) {
        assert_eq!(waiting.back(room).0, 16, "room of {room}");
    }
    // In flight and not sound, for an octet behind flags; and in flight in the old form.
    let mut unsound = waiting.clone();
    unsound.memory[3] = 1;
    let old = Bench::lend(&waiting.memory);
    for room in WRONG_ROOMS.into_iter().chain([OLD, NEW]) {
        assert_eq!(unsound.back(room).0, 1, "room of {room}");
        assert_eq!(old.forward(room).0, 1, "room of {room}");
        assert_eq!(waiting.forward(room).0, 1, "room of {room}");
    }
}

/// The other form is refused by each move, and so are both forms with an octet more or less.
#[test]
fn each_move_refuses_the_other_form() {
    for memory in old_memories() {
        let [old, new] = [Bench::lend(&memory), Bench::of(memory.clone())];
        for room in [OLD, NEW] {
            assert_eq!([new.forward(room).0, old.back(room).0], [1, 1]);
            for lent in [&memory[..OLD - 1], &[&memory[..], &[0]].concat()] {
                assert_eq!(Bench::lend(lent).forward(room).0, 1);
                assert_eq!(Bench::of(lent.to_vec()).back(room).0, 1);
            }
        }
    }
}

/// The room is what it was where a move is refused, and the length and the position are 0.
#[test]
fn a_refused_move_leaves_the_room_as_it_was() {
    type Move = fn(&[u8], &mut [u8]) -> Answer;
    let [old, new] = [full().memory, full().lent()];
    let waiting = waiting().lent();
    let cases: [(Move, &[u8], usize, u8); 6] = [
        (move_forward, &new, NEW, 1),
        (move_forward, &old, NEW + 1, 16),
        (move_forward, &old, NEW - 1, 16),
        (move_back, &old, OLD, 1),
        (move_back, &new, OLD + 1, 16),
        (move_back, &waiting, OLD, 17),
    ];
    for (call, memory, room, number) in cases {
        let mut room = vec![FILL; room];
        let answer = call(memory, &mut room);
        assert_eq!(answer.number as u8, number);
        assert_eq!((answer.length, answer.position), (0, 0));
        assert!(room.iter().all(|octet| *octet == FILL));
    }
    let done = move_forward(&old, &mut [FILL; NEW]);
    assert_eq!((done.number as u8, done.length, done.position), (0, NEW, 0));
    let done = move_back(&new, &mut [FILL; OLD]);
    assert_eq!((done.number as u8, done.length, done.position), (0, OLD, 0));
}

/// Memory is lent to a move to be read: whatever its number, each octet is what it was.
#[test]
fn a_move_changes_no_octet_of_the_memory() {
    let mut numbers = Vec::new();
    for memory in memories() {
        for lent in [memory.clone(), Bench::of(memory).lent(), vec![0xEE; NEW]] {
            for room in [OLD, NEW] {
                for call in [move_forward, move_back] {
                    let kept = lent.clone();
                    numbers.push(call(&kept, &mut vec![FILL; room]).number as u8);
                    assert!(kept == lent);
                }
            }
        }
    }
    numbers.sort();
    numbers.dedup();
    assert_eq!(numbers, [0, 1, 16, 17]);
}

/// Sound in form B, with each cell, each room and the timer as they were, and nothing in flight.
#[test]
fn forward_keeps_all_that_memory_holds() {
    for memory in old_memories() {
        let mut bench = forwarded(&memory);
        assert!(bench.is_sound());
        assert!(bench.memory == memory);
        assert!((0..19).all(|place| bench.memory[flags_at(place)] < 8));
        let [waits, expiries] = [memory[114], memory[115]];
        let number = match waits {
            0 => 8,
            _ if expiries < 4 => 20,
            _ => 21,
        };
        assert_eq!(bench.expire(), number);
    }
}

/// A port of the old form that waits: 0001 and 00A4 have been told, and 0001 has changed since.
fn moved_while_waiting(expiries: u8) -> Bench {
    let mut bench = Bench::fresh();
    bench.done(&[subscribe(0x0001), subscribe(0x00A4)].concat());
    assert_eq!(bench.local(0x00A4, &[0, 9]), 0);
    assert_eq!(bench.local(0x0001, &[7; 8]), 0);
    let mut old = bench.memory;
    // As those bridges left it: what was told has no flag.
    old[flags_at(place(0x00A4))] &= !4;
    old[114..116].copy_from_slice(&[1, expiries]);
    forwarded(&old)
}

#[test]
fn moved_while_waiting_its_acknowledgement_is_taken() {
    for expiries in 0..5 {
        let mut bench = moved_while_waiting(expiries);
        assert_eq!(bench.build().0, 10);
        assert_eq!(bench.send(&[4]), (0, vec![5]));
        assert_eq!(bench.memory[114..116], [0, 0]);
        // What was pending beside it has still to be told, and nothing else.
        let told = hex("03 000E 01 0001 0008 0707070707070707 00");
        assert_eq!(bench.build(), (0, told));
    }
}

#[test]
fn moved_while_waiting_its_expiries_go_on_and_giving_up_marks_nothing() {
    for expiries in 0..5 {
        let mut bench = moved_while_waiting(expiries);
        for _ in expiries..4 {
            assert_eq!(bench.expire(), 20);
        }
        let mut expected = bench.memory.clone();
        expected[114..116].fill(0);
        assert_eq!(bench.expire(), 21);
        assert!(bench.memory == expected);
        assert_eq!(bench.expire(), 8);
    }
}

/// What is told once it is moved is in flight as ever, and comes back when it is given up.
#[test]
fn moved_while_waiting_what_is_told_next_is_in_flight() {
    let mut bench = moved_while_waiting(0);
    assert_eq!(bench.local(0x00A4, &[0, 10]), 0);
    assert_eq!(bench.send(&[4]).0, 0);
    assert_eq!(bench.build().0, 0);
    assert_eq!(bench.memory[flags_at(place(0x00A4))], 11);
    assert_eq!(bench.back(OLD).0, 17);
    for number in [20, 20, 20, 20, 21] {
        assert_eq!(bench.expire(), number);
    }
    assert_eq!(bench.memory[flags_at(place(0x00A4))], 7);
    assert_eq!(bench.back(OLD).0, 0);
}

/// A port that waits for the acknowledgement of two names.
fn two_out() -> Bench {
    let mut bench = Bench::fresh();
    bench.done(&[subscribe(0x0008), subscribe(0x00A4)].concat());
    assert_eq!(bench.local(0x0008, &[1; 4]), 0);
    assert_eq!(bench.local(0x00A4, &[0, 9]), 0);
    assert_eq!(bench.build().0, 0);
    assert_eq!(bench.back(OLD), (17, vec![]));
    bench
}

#[test]
fn back_is_refused_until_it_is_acknowledged() {
    let mut bench = two_out();
    assert_eq!(bench.local(0x00A4, &[0, 8]), 0);
    assert_eq!(bench.back(OLD).0, 17);
    assert_eq!(bench.send(&[4]).0, 0);
    assert_eq!(bench.back(OLD), (0, bench.memory.clone()));
}

#[test]
fn back_is_refused_until_it_is_given_up() {
    let mut bench = two_out();
    for number in [20, 20, 20, 20, 21] {
        assert_eq!(bench.back(OLD).0, 17);
        assert_eq!(bench.expire(), number);
    }
    assert_eq!(bench.back(OLD), (0, bench.memory.clone()));
}

/// The wait goes on when the names are unsubscribed, and back is done all the same.
#[test]
fn back_is_refused_until_each_of_its_names_is_unsubscribed() {
    let mut bench = two_out();
    bench.done(&unsubscribe(0x0008));
    assert_eq!(bench.back(OLD).0, 17);
    bench.done(&unsubscribe(0x00A4));
    assert_eq!(bench.memory[114..116], [1, 0]);
    let (number, old) = bench.back(OLD);
    assert_eq!((number, &old), (0, &bench.memory));
    // So it waits with nothing in flight, and what is given up marks nothing.
    let mut bench = forwarded(&old);
    let mut expected = bench.memory.clone();
    for number in [20, 20, 20, 20, 21] {
        assert_eq!(bench.expire(), number);
    }
    expected[114..116].fill(0);
    assert!(bench.memory == expected);
}
