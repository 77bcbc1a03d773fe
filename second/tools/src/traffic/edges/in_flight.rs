//! What is in flight: marked when it is told, and kept until it is acknowledged, given up or
//! unsubscribed. Memory is shown behind each step that may change a mark.

use port::table::{SetBy, COUNT, ENTRY, EXPIRIES, TABLE, TIMER};
use port::{IN_FLIGHT, PENDING, PRESENT, SUBSCRIBED};

use super::marks::OWN;
use super::script::{Edges, AMPLE};
use crate::traffic::not_served::CODES;
use crate::traffic::operations::Operations;

/// The most expiries that one notification can have.
const ALL: usize = 5;

pub fn add(edges: &mut Edges) {
    given_up(edges);
    one_of_seven(edges);
    changes(edges);
    absent(edges);
    acknowledged(edges);
    unsubscribed(edges);
    untouched(edges);
    refused(edges);
    fresh(edges);
    let memories = memories(edges);
    lent(edges, &memories);
}

/// Fresh memory in which all names are subscribed.
fn subscribed(edges: &mut Edges) {
    edges.fresh();
    edges.command(|operations| TABLE.iter().for_each(|row| operations.subscribe(row.name)));
}

/// The first values of all names that the port sets are out.
fn all_out(edges: &mut Edges) {
    subscribed(edges);
    for (name, [value, _]) in OWN {
        edges.local(name, value);
    }
    edges.build();
}

fn expiries(edges: &mut Edges, count: usize) {
    (0..count).for_each(|_| edges.expiry());
}

/// All seven out, shown before and behind each expiry; told again, given up again, and acknowledged.
fn given_up(edges: &mut Edges) {
    all_out(edges);
    edges.show();
    for _ in 0..ALL {
        edges.expiry();
        edges.show();
    }
    edges.expiry();
    edges.build();
    edges.show();
    expiries(edges, ALL);
    edges.build();
    edges.acknowledge();
    edges.show();
    edges.build();
}

/// One name out among the others, while the next one is pending and the one behind that unsubscribed.
fn one_of_seven(edges: &mut Edges) {
    for (at, (name, values)) in OWN.into_iter().enumerate() {
        let [(next, [value, _]), (other, _)] = [1, 2].map(|step| OWN[(at + step) % OWN.len()]);
        for acknowledge in [false, true] {
            subscribed(edges);
            edges.command(|operations| operations.unsubscribe(other));
            edges.local(name, values[0]);
            edges.build();
            edges.local(next, value);
            if acknowledge {
                edges.acknowledge();
            } else {
                expiries(edges, ALL);
            }
            edges.show();
            edges.build();
            expiries(edges, ALL);
            edges.build();
        }
    }
}

/// Equal, other, former and no values of what is in flight; then what is told of it.
fn changes(edges: &mut Edges) {
    for (name, [first, second]) in OWN {
        let steps = [
            (&[second][..], true),
            (&[second, first], false),
            (&[first], true),
            (&[first], false),
            (&[second, first], true),
            (&[&[]], true),
            (&[&[], &[], first], false),
        ];
        // Two names by all steps; the others by those in which something changes.
        let count = if [0x00A1, 0x00A4].contains(&name) {
            steps.len()
        } else {
            2
        };
        for (values, given_up) in &steps[..count] {
            subscribed(edges);
            edges.local(name, first);
            edges.build();
            values.iter().for_each(|value| edges.local(name, value));
            edges.show();
            match given_up {
                true => expiries(edges, ALL),
                false => edges.acknowledge(),
            }
            edges.build();
        }
    }
}

/// Absent when it is told, and so in flight.
fn absent(edges: &mut Edges) {
    all_out(edges);
    edges.acknowledge();
    OWN.iter().for_each(|(name, _)| edges.local(*name, &[]));
    edges.build();
    edges.show();
    OWN.iter().for_each(|(name, _)| edges.local(*name, &[]));
    edges.show();
    expiries(edges, ALL);
    edges.show();
    edges.local(OWN[3].0, b"back");
    edges.build();
}

/// Acknowledged behind each number of expiries, with none, one and all of them changed meanwhile.
fn acknowledged(edges: &mut Edges) {
    for changed in [0, 1, OWN.len()] {
        for count in 0..ALL {
            all_out(edges);
            expiries(edges, count);
            for (name, [_, value]) in &OWN[..changed] {
                edges.local(*name, value);
            }
            edges.message(AMPLE, &vec![4; 1 + count]);
            edges.show();
            edges.build();
        }
    }
}

/// Unsubscribed while in flight, with a change beside it or none, and subscribed again at once, later
/// or not at all.
fn unsubscribed(edges: &mut Edges) {
    for (name, [_, changed]) in OWN {
        for again in 0..3 {
            all_out(edges);
            if again != 1 {
                edges.local(name, changed);
            }
            edges.command(|operations| {
                operations.unsubscribe(name);
                if again == 0 {
                    operations.subscribe(name);
                }
            });
            edges.show();
            if again == 1 {
                edges.command(|operations| operations.subscribe(name));
                edges.show();
            }
            expiries(edges, ALL);
            edges.build();
        }
    }
    // All of them: the wait goes on, and nothing is left to be told.
    all_out(edges);
    edges.command(|operations| {
        OWN.iter()
            .for_each(|(name, _)| operations.unsubscribe(*name))
    });
    edges.show();
    edges.build();
    expiries(edges, ALL);
    edges.build();
}

/// What leaves it alone: subscribes, sets, reads and what is not served, of the same names and others.
fn untouched(edges: &mut Edges) {
    all_out(edges);
    edges.local(OWN[0].0, OWN[0].1[1]);
    edges.command(|operations| TABLE.iter().for_each(|row| operations.subscribe(row.name)));
    edges.show();
    edges.command(|operations| {
        for (name, [_, value]) in OWN {
            operations.set(name, value);
            operations.read(name);
        }
        operations.get_capabilities();
    });
    edges.show();
    edges.command(|operations| {
        for (name, value) in [(0x0003, 1), (0x0040, 2), (0x0042, 3), (0x0061, 4)] {
            operations.set(name, &[value]);
            operations.unsubscribe(name);
        }
    });
    edges.show();
    for code in CODES {
        edges.command(|operations| {
            for (name, [value, _]) in OWN {
                operations.valued(code, name, value);
            }
        });
    }
    edges.show();
    expiries(edges, ALL);
    edges.build();
}

/// Calls that are refused, each of which would change a mark.
fn refused(edges: &mut Edges) {
    all_out(edges);
    let mut unsubscribe = Operations::default();
    unsubscribe.unsubscribe(0x00A4);
    edges.message(0, &[4]);
    edges.message(0, &unsubscribe.command());
    edges.message(
        AMPLE,
        &[&[1, 0, 5], &unsubscribe.list()[..], &[5, 0]].concat(),
    );
    edges.message(AMPLE, &[4; 2_049]);
    edges.local(0x00A4, &[1]);
    edges.build_into(1_599);
    edges.build();
    edges.show();
    edges.expiry();
    edges.message(0, &[4]);
    edges.show();
}

/// Made fresh while in flight.
fn fresh(edges: &mut Edges) {
    all_out(edges);
    edges.fresh();
    edges.show();
    edges.command(|operations| OWN.iter().for_each(|(name, _)| operations.subscribe(*name)));
    edges.build();
    edges.expiry();
}

/// Memory with flags at a place, and with the timer.
type Lent = (usize, u8, [u8; 2]);

const IDLE: [u8; 2] = [0, 0];
const WAITING: [u8; 2] = [1, 0];
const BOTH: u8 = PENDING | IN_FLIGHT;

/// In flight beside pending, without subscribed or while idle; and flags of other bits.
const OTHERS: [Lent; 12] = [
    (0, BOTH, WAITING),
    (6, SUBSCRIBED | BOTH, IDLE),
    (13, BOTH, IDLE),
    (17, IN_FLIGHT, IDLE),
    (14, SUBSCRIBED | BOTH, [1, 5]),
    (16, SUBSCRIBED | IN_FLIGHT, [2, 0]),
    (1, PRESENT | SUBSCRIBED | BOTH, WAITING),
    (COUNT - 1, SUBSCRIBED | IN_FLIGHT, IDLE),
    (0, SUBSCRIBED | 16, WAITING),
    (6, SUBSCRIBED | IN_FLIGHT | 16, WAITING),
    (17, 16, WAITING),
    (17, SUBSCRIBED | IN_FLIGHT | 0x80, WAITING),
];

/// In flight where it may stand and where not: while idle and while waiting, with each other flag, on
/// the names of the port and on all others.
fn memories(edges: &Edges) -> Vec<Lent> {
    let mut memories = Vec::new();
    for (index, row) in TABLE.iter().enumerate() {
        let present = edges.memory()[index * ENTRY + 2] & PRESENT;
        let marks: &[(u8, [u8; 2])] = match row.set_by {
            SetBy::Port => &[
                (SUBSCRIBED | IN_FLIGHT, [1, 4]),
                (SUBSCRIBED | BOTH, [1, 4]),
                (SUBSCRIBED | IN_FLIGHT, IDLE),
                (IN_FLIGHT, WAITING),
            ],
            SetBy::Controller => &[(SUBSCRIBED | IN_FLIGHT, WAITING)],
            SetBy::Nobody => &[
                (IN_FLIGHT, WAITING),
                (SUBSCRIBED | IN_FLIGHT, WAITING),
                (SUBSCRIBED | BOTH, WAITING),
            ],
        };
        memories.extend(marks.iter().map(|(m, timer)| (index, present | m, *timer)));
    }
    memories.extend(OTHERS);
    memories
}

/// Lends each; where it is sound and has counted four expiries, the call that finds out gives up.
fn lent(edges: &mut Edges, memories: &[Lent]) {
    edges.fresh();
    let fresh = edges.memory();
    for (index, flags, timer) in memories {
        let mut memory = fresh.clone();
        memory[index * ENTRY + 2] = *flags;
        memory[TIMER] = timer[0];
        memory[EXPIRIES] = timer[1];
        edges.lend(&memory);
        edges.build();
    }
    edges.fresh();
}
