//! Form B, which each call asks for: other first octets, other lengths and the old form, on memory that no
//! call refuses in form B.

use port::table::{SIZE, TIMER};
use port::LENT;
use programs::rig::code;

use super::memories::bases;
use super::script::{Edges, AMPLE};
use crate::traffic::forms::form_b;

/// First octets of no profile: beside those that there are, and as they are in some of their bits. With
/// that of profile 03 the memory, in which each name is subscribed, is not sound.
const FIRSTS: [u8; 7] = [0x00, 0x01, 0x03, 0x04, 0x12, 0x82, 0xFF];

pub fn add(edges: &mut Edges) {
    let [fresh, full] = bases(edges);
    for first in FIRSTS {
        lend(edges, &[&[first], &full[..]].concat());
        edges.fresh();
        edges.expiry();
    }
    edges.show();
    lengths(edges, &full);
    edges.lend(&fresh);
}

/// Lends octets and makes every call; of form B each would be done but the one that comes while idle.
fn lend(edges: &mut Edges, lent: &[u8]) {
    edges.lend_octets(lent);
    edges.acknowledge();
    edges.command(|operations| operations.read(0x0003));
    edges.message_in_full(AMPLE, &[1, 0, 1, 0x0A]);
    edges.local(0x00A4, &[5, 6]);
    edges.build();
    edges.expiry();
    edges.instruction(code::GATES, &[0; 8]);
    edges.back(SIZE);
    edges.back(0);
}

/// The old form, idle and waiting; form B and the old form with octets more and less; the octet 02 alone,
/// twice and at the end; and nothing.
fn lengths(edges: &mut Edges, full: &[u8]) {
    let lent = form_b(full);
    let mut waiting = full.to_vec();
    waiting[TIMER] = 1;
    for octets in [
        full,
        &waiting,
        &lent[..LENT - 1],
        &lent[..LENT - 2],
        &[&lent[..], &[0]].concat(),
        &form_b(&lent),
        &[full, &[2]].concat(),
        &lent[..1],
        &[],
    ] {
        lend(edges, octets);
        edges.forward(LENT + 1);
        edges.fresh();
        edges.expiry();
    }
    edges.show();
}
