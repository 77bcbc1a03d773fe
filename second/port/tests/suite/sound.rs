//! A plain reading of what sound memory is, with a table of its own, to hold the library against.

use Setter::{Controller, Nobody, Port};

#[derive(Clone, Copy, PartialEq)]
enum Setter {
    Port,
    Controller,
    Nobody,
}

/// Name, size of the room, who sets it.
const ROWS: [(u16, usize, Setter); 19] = [
    (0x0001, 8, Port),
    (0x0003, 1, Controller),
    (0x0004, 10, Controller),
    (0x0005, 4, Controller),
    (0x0006, 448, Controller),
    (0x0007, 8, Controller),
    (0x0008, 4, Port),
    (0x000B, 4, Nobody),
    (0x0040, 1, Controller),
    (0x0041, 1, Controller),
    (0x0042, 255, Controller),
    (0x0060, 1, Controller),
    (0x0061, 255, Controller),
    (0x00A0, 1, Port),
    (0x00A1, 255, Port),
    (0x00A2, 1, Port),
    (0x00A3, 255, Port),
    (0x00A4, 2, Port),
    (0x8001, 470, Controller),
];

/// Where the room of the place-th parameter starts, and its size.
pub fn room(place: usize) -> (usize, usize) {
    let start = 116 + ROWS[..place].iter().map(|row| row.1).sum::<usize>();
    (start, ROWS[place].1)
}

/// The place of a name.
pub fn place(name: u16) -> usize {
    ROWS.iter().position(|row| row.0 == name).unwrap()
}

/// Whether memory with this first octet is sound in its profile. There are two.
pub fn is_sound_of(profile: u8, memory: &[u8]) -> bool {
    match profile {
        2 => is_sound(memory),
        3 => is_sound(memory) && keeps_release_16(memory),
        _ => false,
    }
}

/// At most 36 entries in the list and in the running block, and no flag but present on 000B.
fn keeps_release_16(memory: &[u8]) -> bool {
    let cell = |name: u16| &memory[6 * place(name)..6 * place(name) + 6];
    let octets = |name: u16| number(&cell(name)[4..]);
    octets(0x0006) <= 7 * 36 && octets(0x8001) <= 22 + 7 * 36 && cell(0x000B)[2] == 1
}

/// Whether memory is sound, in profile 02.
pub fn is_sound(memory: &[u8]) -> bool {
    memory.len() == 2_100
        && (0..19).all(|place| entry_is_sound(memory, place))
        && [0x0003, 0x000B]
            .iter()
            .all(|name| is_present(memory, *name))
        && running_is_sound(memory)
        && timer_is_sound(memory[114], memory[115])
}

fn is_present(memory: &[u8], name: u16) -> bool {
    memory[6 * place(name) + 2] & 1 == 1
}

fn entry_is_sound(memory: &[u8], place: usize) -> bool {
    let (name, size, setter) = ROWS[place];
    let entry = &memory[6 * place..6 * place + 6];
    let (flags, length) = (
        entry[2],
        usize::from(entry[4]) * 256 + usize::from(entry[5]),
    );
    let [present, subscribed, pending, in_flight] = [1, 2, 4, 8].map(|bit| flags & bit == bit);
    if [entry[0], entry[1]] != name.to_be_bytes() || entry[3] != 0 || flags >= 16 {
        return false;
    }
    if (pending || in_flight) && !(subscribed && setter == Port) {
        return false;
    }
    if in_flight && memory[114] != 1 || !present && length != 0 || length > size {
        return false;
    }
    let (start, _) = room(place);
    let (value, tail) = memory[start..start + size].split_at(length);
    tail.iter().all(|octet| *octet == 0) && (!present || keeps_rule(name, value))
}

fn number(octets: &[u8]) -> u64 {
    octets
        .iter()
        .fold(0, |number, octet| number * 256 + u64::from(*octet))
}

fn keeps_rule(name: u16, value: &[u8]) -> bool {
    match name {
        0x0001 => value.len() == 8,
        0x0003 => value == [0] || value == [1],
        0x0004 => value.len() == 10 && number(&value[6..]) < 1_000_000_000,
        0x0005 => value.len() == 4 && number(value) <= 64,
        0x0006 => {
            value.len() <= 448 && value.len().is_multiple_of(7) && value.chunks(7).all(is_entry)
        }
        0x0007 => value.len() == 8 && number(&value[4..]) != 0,
        0x0008 => value.len() == 4,
        0x000B => value == [0, 0, 0, 64],
        0x0040 => value.len() == 1 && (1..=4).contains(&value[0]),
        0x0041 | 0x0060 | 0x00A0 | 0x00A2 => value.len() == 1 && (1..=7).contains(&value[0]),
        0x0042 | 0x0061 | 0x00A1 | 0x00A3 => (1..=255).contains(&value.len()),
        0x00A4 => value.len() == 2,
        _ => is_block(value),
    }
}

fn is_entry(entry: &[u8]) -> bool {
    entry[0] < 3 && entry[1] == 5 && number(&entry[3..]) > 0
}

fn is_block(block: &[u8]) -> bool {
    if block.len() < 29 || !(block.len() - 22).is_multiple_of(7) {
        return false;
    }
    let count = (block.len() - 22) / 7;
    let (list, cycle) = block[14..].split_at(7 * count);
    let total: u64 = list.chunks(7).map(|entry| number(&entry[3..])).sum();
    keeps_rule(0x0004, &block[..10])
        && keeps_rule(0x0005, &block[10..14])
        && keeps_rule(0x0006, list)
        && keeps_rule(0x0007, cycle)
        && number(&block[10..14]) == count as u64
        && total <= number(&cycle[..4]) * 1_000_000_000 / number(&cycle[4..])
}

fn running_is_sound(memory: &[u8]) -> bool {
    !is_present(memory, 0x8001)
        || [0x0004, 0x0005, 0x0006, 0x0007]
            .iter()
            .all(|name| is_present(memory, *name))
}

fn timer_is_sound(state: u8, expiries: u8) -> bool {
    state == 0 && expiries == 0 || state == 1 && expiries <= 4
}
