//! What the tests share: messages, where they break, which gates are open, a bench that watches every
//! lent octet, chance, a reader of replies, child processes, and files of the repository.
#![forbid(unsafe_code)]
#![warn(missing_docs)]

mod bench;
mod broken;
mod chance;
mod gates;
mod messages;
mod reply;

pub mod files;
pub mod process;

pub use bench::{Bench, AMPLE, FILL};
pub use broken::{operations_by_clauses, position_by_clauses};
pub use chance::Chance;
pub use gates::Running;
pub use messages::{command, delete_entry, entries, hex, list, read, schedule, schedule_of};
pub use messages::{selective_read, selective_subscribe, selective_unsubscribe, set, sets};
pub use messages::{subscribe, sums, unsubscribe, valued};
pub use reply::Reply;
