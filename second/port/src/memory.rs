//! Port memory: what sound memory is, and reading and changing memory known to be sound.

use crate::block::{BESIDE_LIST, LIST_ENTRY};
use crate::form::{behind_first, behind_first_mut, write_form_b, LENT};
use crate::profile::{Profile, RELEASE_18};
use crate::table::{
    Parameter, SetBy, BODIES, COMMIT, COUNT, ENTRY, EXPIRIES, GATE_ENABLED, LIST, LIST_MAX, PARTS,
    SIZE, TABLE, TIMER,
};

/// Flag of an entry whose value is present.
pub const PRESENT: u8 = 1;
/// Flag of an entry whose changes are to be reported.
pub const SUBSCRIBED: u8 = 2;
/// Flag of an entry with a change that is not reported yet.
pub const PENDING: u8 = 4;
/// Flag of an entry with a change whose notification nobody has acknowledged yet.
pub const IN_FLIGHT: u8 = 8;

const IDLE: u8 = 0;
const WAITING: u8 = 1;
/// Expiries that are answered by sending again.
const RESENDS: u8 = 4;

/// Fresh memory of profile 02, in form B.
pub static FRESH: [u8; LENT] = {
    let mut octets = [0; SIZE];
    let mut index = 0;
    while index < COUNT {
        let [high, low] = TABLE[index].name.to_be_bytes();
        octets[index * ENTRY] = high;
        octets[index * ENTRY + 1] = low;
        index += 1;
    }
    octets[GATE_ENABLED * ENTRY + 2] = PRESENT;
    octets[GATE_ENABLED * ENTRY + 5] = 1;
    octets[LIST_MAX * ENTRY + 2] = PRESENT;
    octets[LIST_MAX * ENTRY + 5] = 4;
    octets[TABLE[LIST_MAX].start + 3] = 64;
    let mut lent = [0; LENT];
    write_form_b(&octets, &mut lent);
    lent
};

/// What an expiry leads to.
pub enum Expiry {
    /// The notification is to be sent again.
    SendAgain,
    /// The fifth expiry: nothing is waited for any more, and what was in flight has still to be told.
    GivenUp,
}

/// Sound memory, lent for one call.
pub struct Port<'a> {
    /// Whose controllers it serves.
    pub profile: &'static Profile,
    octets: &'a mut [u8; SIZE],
}

impl<'a> Port<'a> {
    /// Takes lent memory if it is sound in form B.
    pub fn lend(memory: &'a mut [u8]) -> Option<Port<'a>> {
        let (profile, octets) = behind_first_mut(memory)?;
        is_sound(profile, octets).then_some(Port { profile, octets })
    }

    /// The flags of an entry.
    pub fn flags(&self, index: usize) -> u8 {
        self.octets[index * ENTRY + 2]
    }

    /// Replaces the flags of an entry.
    pub fn set_flags(&mut self, index: usize, flags: u8) {
        self.octets[index * ENTRY + 2] = flags;
    }

    /// The value of an entry; for the commit, the running block.
    pub fn value(&self, index: usize) -> Option<&[u8]> {
        value_in(self.octets, index)
    }

    /// Gives an entry a value that its rule permits.
    pub fn put(&mut self, index: usize, value: &[u8]) {
        let (body, tail) = self.room(index).split_at_mut(value.len());
        body.copy_from_slice(value);
        tail.fill(0);
        self.describe(index, PRESENT, value.len());
    }

    /// Makes the value of an entry absent.
    pub fn remove(&mut self, index: usize) {
        self.room(index).fill(0);
        self.describe(index, 0, 0);
    }

    /// Makes a block the running one. Each of its values is the one given here, or else the one
    /// that memory holds.
    pub fn run(&mut self, values: [Option<&[u8]>; PARTS.len()]) {
        let (values_held, room) = self.octets.split_at_mut(TABLE[COMMIT].start);
        let mut length = 0;
        for (part, value) in PARTS.into_iter().zip(values) {
            let value = value.or(value_in(values_held, part)).unwrap_or_default();
            room[length..length + value.len()].copy_from_slice(value);
            length += value.len();
        }
        room[length..].fill(0);
        self.describe(COMMIT, PRESENT, length);
    }

    /// Whether a notification waits for its acknowledgement.
    pub fn is_waiting(&self) -> bool {
        self.octets[TIMER] == WAITING
    }

    /// Starts waiting, with no expiry so far: what was pending is in flight.
    pub fn wait(&mut self) {
        self.turn(PENDING, IN_FLIGHT);
        self.octets[TIMER] = WAITING;
        self.octets[EXPIRIES] = 0;
    }

    /// Ends waiting: what was in flight is told.
    pub fn acknowledge(&mut self) {
        self.rest(0);
    }

    /// Counts an expiry while waiting.
    pub fn expire(&mut self) -> Expiry {
        if self.octets[EXPIRIES] < RESENDS {
            self.octets[EXPIRIES] += 1;
            Expiry::SendAgain
        } else {
            self.rest(PENDING);
            Expiry::GivenUp
        }
    }

    /// Becomes idle: what was in flight has the mark given here, if any.
    fn rest(&mut self, left: u8) {
        self.turn(IN_FLIGHT, left);
        self.octets[TIMER] = IDLE;
        self.octets[EXPIRIES] = 0;
    }

    /// Turns a flag into another, or into none, in each entry that has it; all other flags stay.
    fn turn(&mut self, flag: u8, into: u8) {
        for index in 0..COUNT {
            let flags = self.flags(index);
            if flags & flag != 0 {
                self.set_flags(index, flags & !flag | into);
            }
        }
    }

    fn room(&mut self, index: usize) -> &mut [u8] {
        let Parameter { start, most, .. } = TABLE[index];
        &mut self.octets[start..start + most]
    }

    /// Writes presence and length to the table of contents; the marks stay.
    fn describe(&mut self, index: usize, presence: u8, length: usize) {
        self.set_flags(index, self.flags(index) & !PRESENT | presence);
        let at = index * ENTRY + 4;
        self.octets[at..at + 2].copy_from_slice(&(length as u16).to_be_bytes());
    }
}

/// The profile and the 2,100 octets of lent memory that is to be read alone, if it is sound in form B.
pub fn sound_in_form_b(memory: &[u8]) -> Option<(&'static Profile, &[u8; SIZE])> {
    behind_first(memory).filter(|(profile, octets)| is_sound(profile, octets))
}

/// Memory of the old form, if it is sound there: nothing is in flight (RULES 23.6).
pub fn sound_in_old_form(memory: &[u8]) -> Option<&[u8; SIZE]> {
    let octets = memory.try_into().ok()?;
    (is_sound(&RELEASE_18, octets) && !is_in_flight(octets)).then_some(octets)
}

/// Whether an entry is in flight.
pub fn is_in_flight(octets: &[u8; SIZE]) -> bool {
    (0..COUNT).any(|index| Entry::of(octets, index).flags & IN_FLIGHT != 0)
}

/// The value of an entry of sound memory, of which the last rooms may be missing.
pub fn value_in(octets: &[u8], index: usize) -> Option<&[u8]> {
    let entry = Entry::of(octets, index);
    let start = TABLE[index].start;
    (entry.is_present()).then(|| &octets[start..start + entry.length])
}

/// An entry of the table of contents.
struct Entry {
    name: u16,
    flags: u8,
    zero: u8,
    length: usize,
}

impl Entry {
    fn of(octets: &[u8], index: usize) -> Entry {
        let entry = &octets[index * ENTRY..(index + 1) * ENTRY];
        Entry {
            name: u16::from_be_bytes([entry[0], entry[1]]),
            flags: entry[2],
            zero: entry[3],
            length: u16::from_be_bytes([entry[4], entry[5]]).into(),
        }
    }

    fn is_present(&self) -> bool {
        self.flags & PRESENT != 0
    }

    /// All that can be told of an entry without its body, if these are the flags that there are.
    fn is_sound(&self, parameter: &Parameter, flags: u8) -> bool {
        let change_allowed = self.flags & SUBSCRIBED != 0 && parameter.set_by == SetBy::Port;
        self.name == parameter.name
            && self.zero == 0
            && self.flags & !flags == 0
            && (self.flags & (PENDING | IN_FLIGHT) == 0 || change_allowed)
            && (self.is_present() || self.length == 0)
    }
}

fn is_sound(profile: &Profile, octets: &[u8; SIZE]) -> bool {
    let mut present = [false; COUNT];
    let flags = known_flags(octets[TIMER]);
    // Absent rooms and the tails of values join up, so one look covers all between two values.
    let mut value_end = BODIES;
    for (index, parameter) in TABLE.iter().enumerate() {
        let entry = Entry::of(octets, index);
        if !entry.is_sound(parameter, flags) {
            return false;
        }
        if entry.is_present() {
            let start = parameter.start;
            let Some(value) = octets.get(start..start + entry.length) else {
                return false;
            };
            if !parameter.permits(value) || !is_zero(&octets[value_end..start]) {
                return false;
            }
            value_end = start + entry.length;
        }
        present[index] = entry.is_present();
    }
    is_zero(&octets[value_end..])
        && present[GATE_ENABLED]
        && present[LIST_MAX]
        && (!present[COMMIT] || PARTS.iter().all(|&part| present[part]))
        && is_timer(octets[TIMER], octets[EXPIRIES])
        && keeps(profile, octets)
}

/// What of sound memory differs by its profile: how long a list is, that of the running block too, and
/// that a name which is not listed has no marks.
fn keeps(profile: &Profile, octets: &[u8; SIZE]) -> bool {
    let longest = profile.most_entries * LIST_ENTRY;
    Entry::of(octets, LIST).length <= longest
        && Entry::of(octets, COMMIT).length <= longest + BESIDE_LIST
        && (profile.lists(LIST_MAX) || Entry::of(octets, LIST_MAX).flags == PRESENT)
}

/// The flags that there are: while idle nothing is in flight.
fn known_flags(state: u8) -> u8 {
    match state {
        WAITING => PRESENT | SUBSCRIBED | PENDING | IN_FLIGHT,
        _ => PRESENT | SUBSCRIBED | PENDING,
    }
}

fn is_timer(state: u8, expiries: u8) -> bool {
    match state {
        IDLE => expiries == 0,
        WAITING => expiries <= RESENDS,
        _ => false,
    }
}

/// Joins all octets instead of ending early, which lets the loop run on wide registers.
fn is_zero(octets: &[u8]) -> bool {
    octets.iter().fold(0, |joined, octet| joined | octet) == 0
}
