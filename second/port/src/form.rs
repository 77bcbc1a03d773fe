//! Form B, in which memory is kept and lent: the octet of its profile ahead of the 2,100 octets (RULES 23.1
//! to 23.4). That octet is taken off here, so that no other file counts it.

use crate::profile::{Profile, RELEASE_18};
use crate::table::SIZE;

/// Octets of what is lent in form B.
pub const LENT: usize = 1 + SIZE;

/// The profile of what is lent and the memory behind its first octet, if that is in form B.
pub fn behind_first(lent: &[u8]) -> Option<(&'static Profile, &[u8; SIZE])> {
    let (&first, memory) = lent.split_first()?;
    Some((Profile::of(first)?, memory.try_into().ok()?))
}

/// The same, to be changed. What is behind the first octet alone can be.
pub fn behind_first_mut(lent: &mut [u8]) -> Option<(&'static Profile, &mut [u8; SIZE])> {
    let (&mut first, memory) = lent.split_first_mut()?;
    Some((Profile::of(first)?, memory.try_into().ok()?))
}

/// Writes memory of profile 02 in form B.
pub const fn write_form_b(memory: &[u8; SIZE], lent: &mut [u8; LENT]) {
    let (first, behind) = lent.split_at_mut(1);
    first[0] = RELEASE_18.octet;
    behind.copy_from_slice(memory);
}
