//! Marks: what a local value, a subscribe, a read and a notification do to them, and what not.

use port::table::{SetBy, TABLE};

use super::script::Edges;

/// The names that the port sets, each with two values that its rule permits.
pub const OWN: [(u16, [&[u8]; 2]); 7] = [
    (0x0001, [&[1; 8], &[2; 8]]),
    (0x0008, [&[1; 4], &[2; 4]]),
    (0x00A0, [&[1], &[2]]),
    (0x00A1, [b"chassis", b"other"]),
    (0x00A2, [&[3], &[4]]),
    (0x00A3, [b"port", b"another"]),
    (0x00A4, [&[0, 120], &[0, 60]]),
];

pub fn add(edges: &mut Edges) {
    changes(edges);
    subscriptions(edges);
    neighbours(edges);
    reads(edges);
    notifications(edges);
    waiting(edges);
}

/// Whether a local value is told, one after another.
fn changes(edges: &mut Edges) {
    edges.fresh();
    edges.local(0x00A1, b"abcde");
    edges.command(|operations| operations.subscribe(0x00A1));
    for value in [
        &b"abcde"[..],
        b"abcdf",
        b"Abcdf",
        b"AbXdf",
        b"AbXd",
        b"AbX",
        b"AbXdf",
        b"AbXdf",
        b"",
        b"",
        b"AbX",
        b"f",
        b"",
        &[0; 255],
        &[0; 254],
        &[0; 3],
    ] {
        edges.local(0x00A1, value);
        edges.build();
        edges.acknowledge();
    }
    // Changed and changed back, made absent and set again, before it is told.
    for values in [[&b"one"[..], b"two", b"one"], [b"", b"one", b""]] {
        for value in values {
            edges.local(0x00A1, value);
        }
        edges.build();
        edges.acknowledge();
    }
}

/// All names, subscribed and not, and marks that are given twice.
fn subscriptions(edges: &mut Edges) {
    edges.fresh();
    edges.command(|operations| TABLE.iter().for_each(|row| operations.subscribe(row.name)));
    edges.show();
    for (name, [value, _]) in OWN {
        edges.local(name, value);
    }
    for (name, _) in OWN {
        edges.command(|operations| operations.subscribe(name));
    }
    edges.command(|operations| {
        operations.unsubscribe(0x00A3);
        operations.subscribe(0x00A3);
        operations.subscribe(0x0008);
        operations.unsubscribe(0x0008);
        operations.set(0x0040, &[1]);
    });
    edges.show();
    edges.build();
    edges.show();
    edges.acknowledge();
    edges.command(|operations| {
        TABLE
            .iter()
            .for_each(|row| operations.unsubscribe(row.name))
    });
    edges.show();
    for (name, [_, value]) in OWN {
        edges.local(name, value);
    }
    edges.build();
    // Present by now: a subscribe alone tells nothing.
    edges.command(|operations| OWN.iter().for_each(|(name, _)| operations.subscribe(*name)));
    edges.build();
}

/// A local value beside others that are subscribed, pending or neither.
fn neighbours(edges: &mut Edges) {
    for (changed, values) in OWN {
        edges.fresh();
        edges.command(|operations| OWN.iter().for_each(|(name, _)| operations.subscribe(*name)));
        edges.local(changed, values[0]);
        edges.build();
        edges.acknowledge();
        for (name, values) in OWN.iter().filter(|(name, _)| *name != changed) {
            edges.local(*name, values[0]);
        }
        edges.local(changed, values[1]);
        edges.build();
        edges.acknowledge();
        edges.command(|operations| operations.unsubscribe(changed));
        edges.local(changed, values[0]);
        edges.build();
        edges.show();
    }
}

/// Reads and get capabilities of what is pending, and what is told then.
fn reads(edges: &mut Edges) {
    edges.fresh();
    edges.command(|operations| {
        OWN.iter().for_each(|(name, _)| operations.subscribe(*name));
        operations.set(0x0003, &[1]);
    });
    for (name, [value, _]) in OWN {
        edges.local(name, value);
    }
    edges.command(|operations| TABLE.iter().for_each(|row| operations.read(row.name)));
    edges.show();
    edges.command(|operations| operations.get_capabilities());
    edges.show();
    edges.build();
    edges.command(|operations| OWN.iter().for_each(|(name, _)| operations.read(*name)));
    edges.acknowledge();
    edges.command(|operations| {
        TABLE
            .iter()
            .for_each(|row| operations.unsubscribe(row.name))
    });
    edges.command(|operations| TABLE.iter().for_each(|row| operations.read(row.name)));
    edges.command(|operations| operations.get_capabilities());
    edges.show();
}

/// Notifications of every other name, present and absent, and of all with their longest values.
fn notifications(edges: &mut Edges) {
    for absent in 0..3 {
        edges.fresh();
        edges.command(|operations| OWN.iter().for_each(|(name, _)| operations.subscribe(*name)));
        for (name, [value, _]) in OWN {
            edges.local(name, value);
        }
        for (name, _) in OWN.iter().skip(absent).step_by(2) {
            edges.local(*name, &[]);
        }
        for room in [0, 1_599, 1_600] {
            edges.build_into(room);
        }
        edges.show();
        edges.acknowledge();
    }
    for row in TABLE.iter().filter(|row| row.set_by == SetBy::Port) {
        let value = if row.most == 1 {
            vec![7]
        } else {
            vec![0xEE; row.most]
        };
        edges.local(row.name, &value);
    }
    edges.build_into(1_601);
}

/// What is done while a notification waits: nothing of it ends the wait but an acknowledgement or
/// the fifth expiry.
fn waiting(edges: &mut Edges) {
    for expiries in 0..6 {
        edges.fresh();
        edges.command(|operations| OWN.iter().for_each(|(name, _)| operations.subscribe(*name)));
        edges.local(0x0008, &[1; 4]);
        edges.build();
        edges.local(0x00A4, &[0, expiries]);
        edges.local(0x00A1, &[expiries; 3]);
        for _ in 0..expiries {
            edges.expiry();
        }
        edges.build();
        edges.command(|operations| {
            operations.unsubscribe(0x0008);
            operations.read(0x0008);
        });
        edges.local(0x00A1, &[]);
        edges.show();
        edges.message(0, &[4]);
        edges.message(1, &[4, 5, 6]);
        edges.expiry();
        edges.build();
        edges.expiry();
    }
}
