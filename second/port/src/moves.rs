//! The two calls that move memory from its old form to form B and back (RULES section 23).

use crate::endpoint::{Answer, Number};
use crate::form::{write_form_b, LENT};
use crate::memory::{is_in_flight, sound_in_form_b, sound_in_old_form};
use crate::profile::RELEASE_18;
use crate::table::SIZE;

/// Writes memory of the old form to `room` in form B: bridges that have it know profile 02 alone.
pub fn move_forward(memory: &[u8], room: &mut [u8]) -> Answer {
    forward_result(memory, room).into()
}

fn forward_result(memory: &[u8], room: &mut [u8]) -> Result<usize, Number> {
    let memory = sound_in_old_form(memory).ok_or(Number::MemoryUnsound)?;
    write_form_b(memory, exactly::<LENT>(room)?);
    Ok(LENT)
}

/// Writes memory of form B to `room` in the old form, unless it is of another profile than old bridges
/// know or something is in flight, of which the old form has no mark (RULES 23.16).
pub fn move_back(memory: &[u8], room: &mut [u8]) -> Answer {
    back_result(memory, room).into()
}

fn back_result(memory: &[u8], room: &mut [u8]) -> Result<usize, Number> {
    let (profile, memory) = sound_in_form_b(memory).ok_or(Number::MemoryUnsound)?;
    let room = exactly::<SIZE>(room)?;
    if profile.octet != RELEASE_18.octet {
        return Err(Number::NoOldForm);
    }
    if is_in_flight(memory) {
        return Err(Number::InFlight);
    }
    *room = *memory;
    Ok(SIZE)
}

/// A room of just so many octets (RULES 23.9).
fn exactly<const LENGTH: usize>(room: &mut [u8]) -> Result<&mut [u8; LENGTH], Number> {
    room.try_into().map_err(|_| Number::RoomNotExact)
}
