//! The profiles: controllers of which release a port serves. What differs by it stands here, and what
//! acts on it is written once for both.

use crate::reply::Cause;
use crate::table::{Places, COUNT, LIST_LENGTH, LIST_MAX, TABLE};

/// What controllers of a release send and understand. Memory tells by its own first octet which it is.
#[derive(Debug)]
pub struct Profile {
    /// That octet.
    pub octet: u8,
    /// The highest code of an operation.
    pub last_code: u8,
    /// The places of the listed names.
    places: Places,
    /// The listed names as octets, in the order of the table.
    pub names: &'static [u8],
    /// Octets of AdminControlListLength in a message; memory and blocks have four.
    list_length: usize,
    /// Most octets of a set's value, as sent.
    pub longest_set: usize,
    /// Most entries of a list in memory: what no set can bring, no memory holds.
    pub most_entries: usize,
    /// Why an absent value is not told.
    pub absent: Cause,
}

/// Profile 02, of TS 24.539.
pub static RELEASE_18: Profile = Profile {
    octet: 0x02,
    last_code: 9,
    places: Places::but(None),
    names: &names::<{ 2 * COUNT }>(None),
    list_length: 4,
    longest_set: u16::MAX as usize,
    most_entries: 64,
    absent: Cause::Unavailable,
};

/// Profile 03, of TS 24.519: it has no selective operations, no long updates and no cause 03.
pub static RELEASE_16: Profile = Profile {
    octet: 0x03,
    last_code: 5,
    places: Places::but(Some(LIST_MAX)),
    names: &names::<{ 2 * (COUNT - 1) }>(Some(LIST_MAX)),
    list_length: 2,
    longest_set: u8::MAX as usize,
    most_entries: 36,
    absent: Cause::Unspecified,
};

/// The names of all entries but one that is not listed.
const fn names<const OCTETS: usize>(unlisted: Option<usize>) -> [u8; OCTETS] {
    let mut names = [0; OCTETS];
    let mut index = 0;
    let mut at = 0;
    while index < COUNT {
        if !matches!(unlisted, Some(place) if place == index) {
            [names[at], names[at + 1]] = TABLE[index].name.to_be_bytes();
            at += 2;
        }
        index += 1;
    }
    assert!(at == OCTETS);
    names
}

/// What memory keeps for each number that AdminControlListLength may be.
static LIST_LENGTHS: [[u8; 4]; 65] = {
    let mut lengths = [[0; 4]; 65];
    let mut number = 0;
    while number < lengths.len() {
        lengths[number] = (number as u32).to_be_bytes();
        number += 1;
    }
    lengths
};

impl Profile {
    /// The profile of memory with this first octet.
    pub fn of(octet: u8) -> Option<&'static Profile> {
        let profiles = [&RELEASE_18, &RELEASE_16];
        profiles.into_iter().find(|profile| profile.octet == octet)
    }

    /// The place of a listed name in the table.
    pub fn find(&self, name: u16) -> Option<usize> {
        self.places.find(name)
    }

    /// Whether the name of an entry is a listed one.
    pub fn lists(&self, index: usize) -> bool {
        self.find(TABLE[index].name) == Some(index)
    }

    /// What a message tells of a value that memory keeps.
    pub fn told<'a>(&self, index: usize, kept: &'a [u8]) -> &'a [u8] {
        if index == LIST_LENGTH {
            &kept[kept.len() - self.list_length..]
        } else {
            kept
        }
    }

    /// What memory would keep of a value that a message tells; `None` where it cannot keep it.
    pub fn kept<'m>(&self, index: usize, told: &'m [u8]) -> Option<&'m [u8]> {
        if index != LIST_LENGTH || self.list_length == LIST_LENGTHS[0].len() {
            return Some(told);
        }
        let number = u16::from_be_bytes(told.try_into().ok()?);
        let kept = LIST_LENGTHS.get(usize::from(number))?;
        Some(kept)
    }
}
