//! Moves between the old form and form B: rooms a step beside the right ones, memory that a move refuses,
//! each name in flight, and what becomes of a port that is moved while it waits.

use port::table::{BODIES, COMMIT, ENTRY, EXPIRIES, GATE_ENABLED, LIST_MAX, SIZE, TABLE, TIMER};
use port::{IN_FLIGHT, LENT, PENDING, PRESENT, SUBSCRIBED};

use super::marks::OWN;
use super::memories::bases;
use super::script::Edges;
use crate::traffic::forms::form_b;
use crate::traffic::memories::install;

/// Lengths of rooms that are right for no move.
const WRONG_ROOMS: [usize; 9] = [0, 1, 1_600, 2_099, 2_102, 2_103, 4_196, 8_192, 65_535];
/// Octets of the timer while idle.
const IDLE: [u8; 2] = [0, 0];

pub fn add(edges: &mut Edges) {
    let [fresh, full] = bases(edges);
    rooms(edges, &full);
    out(edges, &full);
    one_by_one(edges);
    refused(edges, &full);
    let told = told(&full);
    for (step, timer) in [
        (0, [1, 0]),
        (1, [1, 0]),
        (2, [1, 3]),
        (3, [1, 4]),
        (4, [1, 2]),
    ] {
        moved_while_waiting(edges, &told, step, timer);
    }
    there_and_back(edges, &full);
    edges.lend(&fresh);
}

/// Rooms of all lengths, right ones among them; what they hold then, and what is lent.
fn rooms(edges: &mut Edges, full: &[u8]) {
    edges.lend_octets(full);
    WRONG_ROOMS.iter().for_each(|room| edges.forward(*room));
    edges.forward(SIZE);
    edges.show_room();
    edges.forward(LENT);
    edges.show_room();
    edges.show();
    edges.forward(7);
    edges.show_room();
    edges.back(5);
    edges.show_room();
    edges.lend_octets(&form_b(full));
    WRONG_ROOMS.iter().for_each(|room| edges.back(*room));
    edges.back(LENT);
    edges.show_room();
    edges.back(SIZE);
    edges.show_room();
    edges.show();
    edges.forward(LENT);
    edges.forward(SIZE);
    edges.forward(0);
    edges.show_room();
}

/// All seven out, in rooms right and wrong: not moved back until they are given up or acknowledged. And
/// first what cannot be out.
fn out(edges: &mut Edges, full: &[u8]) {
    let mut nobodys = full.to_vec();
    nobodys[LIST_MAX * ENTRY + 2] |= IN_FLIGHT;
    nobodys[TIMER] = 1;
    edges.lend(&nobodys);
    edges.back(SIZE);
    edges.lend(full);
    edges.build();
    edges.back(SIZE);
    edges.show_room();
    edges.show();
    WRONG_ROOMS.iter().for_each(|room| edges.back(*room));
    edges.back(LENT);
    edges.forward(LENT);
    for _ in 0..5 {
        edges.expiry();
        edges.back(SIZE);
    }
    edges.build();
    edges.local(OWN[0].0, OWN[0].1[0]);
    edges.back(SIZE);
    edges.acknowledge();
    edges.back(SIZE);
}

/// Each name out by itself, with a change beside it and without: in form B, there also once it is
/// unsubscribed, which leaves the port waiting with nothing in flight, and then in the old form.
fn one_by_one(edges: &mut Edges) {
    let mut all = Vec::new();
    for (at, (name, [first, second])) in OWN.into_iter().enumerate() {
        edges.fresh();
        edges.command(|operations| operations.subscribe(name));
        edges.local(name, first);
        edges.build();
        edges.back(SIZE);
        if at % 2 == 0 {
            edges.local(name, second);
            edges.back(SIZE);
        }
        all.push(edges.memory());
        edges.command(|operations| operations.unsubscribe(name));
        edges.back(SIZE);
    }
    for out in all {
        edges.lend_octets(&out);
        edges.forward(LENT);
        edges.forward(SIZE);
    }
}

/// Changes of sound memory, each of which breaks a clause of soundness.
fn unsound() -> [Vec<(usize, u8)>; 13] {
    [
        vec![(0, 0x40)],
        vec![(3, 1)],
        vec![(2, PRESENT | SUBSCRIBED | 16)],
        vec![(2, PRESENT | PENDING)],
        vec![(2, PRESENT | SUBSCRIBED | IN_FLIGHT)],
        vec![(GATE_ENABLED * ENTRY + 2, PRESENT | SUBSCRIBED | PENDING)],
        vec![
            (GATE_ENABLED * ENTRY + 2, PRESENT | SUBSCRIBED | IN_FLIGHT),
            (TIMER, 1),
        ],
        vec![(4, 1)],
        vec![(TABLE[GATE_ENABLED].start, 2)],
        vec![(TABLE[COMMIT].start + 13, 3)],
        vec![(EXPIRIES, 1)],
        vec![(TIMER, 1), (EXPIRIES, 5)],
        vec![(SIZE - 1, 1)],
    ]
}

/// Memory of the old form that is not sound, with the right room and without.
fn refused(edges: &mut Edges, full: &[u8]) {
    for change in unsound() {
        let mut memory = full.to_vec();
        change.iter().for_each(|(at, octet)| memory[*at] = *octet);
        edges.lend_octets(&memory);
        edges.forward(LENT);
        edges.forward(0);
    }
    let mut memory = full.to_vec();
    install(&mut memory, LIST_MAX, None);
    let longer = [full, &[0]].concat();
    for octets in [
        &memory[..],
        &longer,
        &full[..SIZE - 1],
        &full[..BODIES],
        &[],
    ] {
        edges.lend_octets(octets);
        edges.forward(LENT);
        edges.forward(octets.len() + 1);
    }
}

/// Memory as an old bridge has it that has told three of seven names: these have no flag.
fn told(full: &[u8]) -> Vec<u8> {
    let mut memory = full.to_vec();
    for place in [0, 14, 17] {
        memory[place * ENTRY + 2] &= !PENDING;
    }
    memory
}

/// Moved forward while waiting, and what comes then.
fn moved_while_waiting(edges: &mut Edges, told: &[u8], step: usize, timer: [u8; 2]) {
    let mut old = told.to_vec();
    old[TIMER..BODIES].copy_from_slice(&timer);
    edges.lend_octets(&old);
    [0, SIZE, LENT + 1]
        .iter()
        .for_each(|room| edges.forward(*room));
    edges.forward(LENT);
    edges.lend_octets(&form_b(&old));
    [0, SIZE - 1, LENT]
        .iter()
        .for_each(|room| edges.back(*room));
    edges.build();
    match step {
        0 => edges.acknowledge(),
        1 => {}
        2 => edges.local(0x00A4, &[9, 9]),
        3 => edges.command(|operations| OWN[1..3].iter().for_each(|o| operations.unsubscribe(o.0))),
        _ => edges.back(SIZE),
    }
    while edges.memory()[TIMER..BODIES] != IDLE {
        edges.expiry();
    }
    edges.expiry();
    edges.show();
    edges.build();
    edges.back(SIZE);
}

/// Forward, back and forward again, each on what the one before wrote; then all that is read of it.
fn there_and_back(edges: &mut Edges, full: &[u8]) {
    for octets in [full, &form_b(full), full, &form_b(full)] {
        edges.lend_octets(octets);
        match octets.len() {
            SIZE => edges.forward(LENT),
            _ => edges.back(SIZE),
        }
    }
    edges.command(|operations| TABLE.iter().for_each(|row| operations.read(row.name)));
    edges.build();
}
