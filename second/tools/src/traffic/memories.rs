//! Memory for traffic to lend: damaged in every clause of soundness, sound but unusual, or in no form.
//! What is given and what is lent is in form B, unless something else is said.

use port::table::{
    SetBy, BODIES, COMMIT, COUNT, ENTRY, EXPIRIES, GATE_ENABLED, LIST, LIST_MAX, PARTS, SIZE,
    TABLE, TIMER,
};
use port::{Profile, IN_FLIGHT, LENT, LIST_ENTRY, PENDING, PRESENT, RELEASE_18, SUBSCRIBED};
use programs::rig::MOST_LENT;

use super::dice::Dice;
use super::forms::{behind, form_b_of, held, other, profile};
use super::{gated, schedules, values};

/// One memory in so many that is lent with a change has the octet of the other profile as well.
const EXCHANGED: usize = 6;
/// Numbers of list entries around the most that profile 03 permits.
const ENTRIES: [usize; 6] = [35, 36, 36, 37, 37, 64];

/// Sound memory with some change, after which it mostly is not sound.
pub fn changed(dice: &mut Dice, sound: &[u8]) -> Vec<u8> {
    let mut memory = behind(sound).to_vec();
    let profile = match profile(sound) {
        profile if dice.one_in(EXCHANGED) => other(profile),
        profile => profile,
    };
    match dice.below(23) {
        0..=4 => change_octets(dice, sound, &mut memory),
        5..=6 => return in_no_form(dice, sound),
        7..=9 => change_value(dice, &mut memory),
        10 => remove_value(dice, &mut memory),
        11..=13 => change_flags(dice, &mut memory),
        14..=15 => change_block(dice, &mut memory),
        16..=18 => reach_bounds(dice, &mut memory),
        _ => change_marks(dice, profile, &mut memory),
    }
    form_b_of(profile, &memory)
}

/// Sound memory with other marks and another timer, which mostly may stand.
pub fn marked(dice: &mut Dice, sound: &[u8]) -> Vec<u8> {
    let mut memory = behind(sound).to_vec();
    change_marks(dice, profile(sound), &mut memory);
    form_b_of(profile(sound), &memory)
}

/// Sound memory that is not in form B: with another first octet, without it, or of another length.
pub fn in_no_form(dice: &mut Dice, sound: &[u8]) -> Vec<u8> {
    let mut lent = sound.to_vec();
    match dice.below(5) {
        0..=1 => {
            let any = dice.octet();
            lent[0] = dice.pick(&[0x00, 0x01, 0x04, 0xFF, any]);
        }
        2 => drop(lent.remove(0)),
        _ => change_length(dice, &mut lent),
    }
    lent
}

/// Sound memory in which a block runs that is not made of the values beside it.
pub fn running(dice: &mut Dice, sound: &[u8]) -> Vec<u8> {
    let mut memory = behind(sound).to_vec();
    let profile = profile(sound);
    for part in PARTS {
        if held(sound, part).is_none() || dice.one_in(2) {
            let mut value = values::permitted(dice, &TABLE[part]);
            value.truncate(profile.most_entries * LIST_ENTRY);
            install(&mut memory, part, Some(&value));
        }
    }
    let block = gated::schedule(dice, profile).concat();
    install(&mut memory, COMMIT, Some(&block));
    form_b_of(profile, &memory)
}

/// Sound memory with one octet changed, often one of the running block.
pub fn damaged(dice: &mut Dice, sound: &[u8]) -> Vec<u8> {
    let mut memory = behind(sound).to_vec();
    let at = match held(sound, COMMIT) {
        Some(block) if dice.one_in(2) => TABLE[COMMIT].start + dice.below(block.len()),
        _ => place(dice, sound),
    };
    change_octet(dice, &mut memory[at]);
    form_b_of(profile(sound), &memory)
}

/// Changes one to three octets.
fn change_octets(dice: &mut Dice, sound: &[u8], memory: &mut [u8]) {
    for _ in 0..dice.between(1, 3) {
        let at = place(dice, sound);
        change_octet(dice, &mut memory[at]);
    }
}

/// A place that matters, more often than any other.
fn place(dice: &mut Dice, sound: &[u8]) -> usize {
    match dice.below(5) {
        0..=1 => dice.below(BODIES),
        2..=3 => near_an_end(dice, sound),
        _ => dice.below(SIZE),
    }
}

fn change_octet(dice: &mut Dice, octet: &mut u8) {
    *octet = match dice.below(3) {
        0 => octet.wrapping_add(1),
        1 => *octet ^ 1 << dice.below(8),
        _ => dice.octet(),
    };
}

/// The last octet of a value or room, or the octet after it.
fn near_an_end(dice: &mut Dice, sound: &[u8]) -> usize {
    let index = dice.below(COUNT);
    let parameter = &TABLE[index];
    let length = held(sound, index).map_or(0, <[u8]>::len);
    let end = parameter.start + dice.pick(&[length, length, parameter.most]);
    (end - dice.below(2)).min(SIZE - 1)
}

fn change_length(dice: &mut Dice, lent: &mut Vec<u8>) {
    let any = dice.below(MOST_LENT + 1);
    let near = dice.pick(&[SIZE - 1, SIZE, LENT + 1]);
    lent.resize(
        dice.pick(&[0, 1, BODIES, near, near, near, MOST_LENT, any]),
        0,
    );
}

/// Installs a value that is permitted or, more often, one that its room can hold but its rule
/// does not permit.
fn change_value(dice: &mut Dice, memory: &mut [u8]) {
    let index = dice.below(COMMIT);
    let value = if dice.one_in(3) {
        values::permitted(dice, &TABLE[index])
    } else {
        off_in_room(dice, index)
    };
    install(memory, index, Some(&value));
}

/// Tries until one fits; every parameter has some, if only by being too short.
fn off_in_room(dice: &mut Dice, index: usize) -> Vec<u8> {
    loop {
        let value = values::off(dice, &TABLE[index]);
        if value.len() <= TABLE[index].most {
            return value;
        }
    }
}

/// Makes a value absent, often one that must be present, at all times or while a block runs.
fn remove_value(dice: &mut Dice, memory: &mut [u8]) {
    let index = match dice.below(4) {
        0 => dice.pick(&[GATE_ENABLED, LIST_MAX]),
        1 => dice.pick(&PARTS),
        _ => dice.below(COUNT),
    };
    install(memory, index, None);
}

/// Flags that mostly may not stand. What is in flight is often so while waiting, where only its other
/// flags and its name can be wrong.
fn change_flags(dice: &mut Dice, memory: &mut [u8]) {
    let any = dice.below(COUNT);
    let own = values::place(dice, SetBy::Port);
    let flags = &mut memory[dice.pick(&[any, any, any, own, own, LIST_MAX]) * ENTRY + 2];
    *flags = match dice.below(9) {
        0 => *flags ^ PRESENT,
        1..=2 => *flags | dice.pick(&[16, 32, 64, 128]),
        3 => *flags | SUBSCRIBED | PENDING,
        4 => *flags & PRESENT | PENDING,
        5..=6 => *flags | SUBSCRIBED | IN_FLIGHT,
        _ => *flags & PRESENT | IN_FLIGHT | dice.pick(&[0, PENDING]),
    };
    if *flags & IN_FLIGHT != 0 && !dice.one_in(3) {
        memory[TIMER] = 1;
    }
}

/// Lets a block run that may lack form, fit, or the presence of a value it was made of.
fn change_block(dice: &mut Dice, memory: &mut [u8]) {
    let mut parts = schedules::parts(dice, RELEASE_18.most_entries);
    for (value, index) in parts.iter().zip(PARTS) {
        if !dice.one_in(20) {
            install(memory, index, Some(value));
        }
    }
    if dice.one_in(2) {
        let part = dice.below(PARTS.len());
        parts[part] = off_in_room(dice, PARTS[part]);
    }
    let block = parts.concat();
    if block.len() <= TABLE[COMMIT].most {
        install(memory, COMMIT, Some(&block));
    }
}

/// What is sound in profile 02 and at a bound of profile 03, or past it: lists in their room or in a block
/// that runs, and the mark that 000B may have.
fn reach_bounds(dice: &mut Dice, memory: &mut [u8]) {
    let count = dice.pick(&ENTRIES);
    match dice.below(4) {
        0 => memory[LIST_MAX * ENTRY + 2] = PRESENT | dice.pick(&[0, SUBSCRIBED, SUBSCRIBED]),
        1 => install(memory, LIST, Some(&values::list(dice, count))),
        at => {
            let parts = gated::schedule_of(dice, count);
            for (value, part) in parts.iter().zip(PARTS) {
                let kept = if part == LIST && at == 2 {
                    &[]
                } else {
                    &value[..]
                };
                install(memory, part, Some(kept));
            }
            install(memory, COMMIT, Some(&parts.concat()));
        }
    }
}

/// Sound marks on names set by the port, and a timer that may be out of its range. While idle what is
/// in flight is not sound, and so it seldom is, nor is a mark on a name that the profile does not list.
fn change_marks(dice: &mut Dice, profile: &Profile, memory: &mut [u8]) {
    if dice.one_in(2) {
        memory[TIMER] = dice.pick(&[0, 1, 1, 1, 2]);
        memory[EXPIRIES] = dice.pick(&[0, 1, 2, 3, 4, 4, 5]);
    }
    let in_flight = if memory[TIMER] == 1 || dice.one_in(6) {
        IN_FLIGHT
    } else {
        0
    };
    for (index, parameter) in TABLE.iter().enumerate() {
        let flags = &mut memory[index * ENTRY + 2];
        let marks = match parameter.set_by {
            SetBy::Port => {
                let changes = dice.pick(&[0, PENDING, in_flight, PENDING | in_flight]);
                dice.pick(&[0, SUBSCRIBED | changes, SUBSCRIBED | changes])
            }
            SetBy::Nobody if !profile.lists(index) && !dice.one_in(8) => 0,
            SetBy::Controller | SetBy::Nobody => dice.pick(&[0, SUBSCRIBED]),
        };
        *flags = *flags & PRESENT | marks;
    }
}

/// Gives an entry a value, sound or not, or makes it absent; its marks stay.
pub fn install(memory: &mut [u8], index: usize, value: Option<&[u8]>) {
    let octets = value.unwrap_or_default();
    let entry = &mut memory[index * ENTRY..(index + 1) * ENTRY];
    entry[2] = entry[2] & !PRESENT | if value.is_some() { PRESENT } else { 0 };
    entry[4..].copy_from_slice(&(octets.len() as u16).to_be_bytes());
    let start = TABLE[index].start;
    memory[start..start + octets.len()].copy_from_slice(octets);
    memory[start + octets.len()..start + TABLE[index].most].fill(0);
}
