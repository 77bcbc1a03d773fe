//! Bightmoor's second port management endpoint: five calls over one port's lent memory, one that tells
//! which gates are open, two that move memory between its forms, the delay conversion, and a reader of
//! captured messages. It needs no operating system, no heap and no other crate.
#![no_std]
#![forbid(unsafe_code)]
#![warn(missing_docs)]

mod block;
mod capture;
mod draft;
mod endpoint;
mod form;
mod gates;
mod memory;
mod moves;
mod octets;
mod operation;
mod profile;
mod reply;
mod rules;

pub mod delay;
pub mod table;

pub use block::{last_four, Block, LIST_ENTRY};
pub use capture::{read_capture, Capture, CaptureType, Captured, CapturedRecords, LONGEST_CAPTURE};
pub use delay::{DelayUnits, Nanoseconds};
pub use endpoint::{
    build_notification, make_fresh, take_expiry, take_local_value, take_message, Answer, Number,
};
pub use form::{behind_first, LENT};
pub use gates::{gates, Gates};
pub use memory::{sound_in_form_b, value_in, FRESH, IN_FLIGHT, PENDING, PRESENT, SUBSCRIBED};
pub use moves::{move_back, move_forward};
pub use profile::{Profile, RELEASE_16, RELEASE_18};
pub use reply::Cause;
