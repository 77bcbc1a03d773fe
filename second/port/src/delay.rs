//! The delay conversion: whole nanoseconds and units of 1/65,536 nanosecond as separate kinds.
//!
//! Only the conversion leads from one kind to the other:
//!
//! ```
//! use port::{DelayUnits, Nanoseconds};
//! fn stored(delay: DelayUnits) -> [u8; 8] {
//!     delay.octets()
//! }
//! assert_eq!(stored(Nanoseconds(1).into()), [0, 0, 1, 0, 0, 0, 0, 0]);
//! ```
//!
//! Nanoseconds are not taken for delay units:
//!
//! ```compile_fail,E0308
//! use port::{DelayUnits, Nanoseconds};
//! fn stored(delay: DelayUnits) -> [u8; 8] {
//!     delay.octets()
//! }
//! stored(Nanoseconds(1));
//! ```
//!
//! nor delay units for nanoseconds:
//!
//! ```compile_fail,E0308
//! use port::{DelayUnits, Nanoseconds};
//! let delay: Nanoseconds = DelayUnits(65_536);
//! ```
//!
//! and the two are not compared:
//!
//! ```compile_fail,E0308
//! use port::{DelayUnits, Nanoseconds};
//! assert!(Nanoseconds(0) == DelayUnits(0));
//! ```

/// Whole nanoseconds.
#[derive(Clone, Copy, Debug, PartialEq, Eq)]
pub struct Nanoseconds(pub u64);

/// Units of a nanosecond divided by 65,536, as txPropagationDelay carries them.
#[derive(Clone, Copy, Debug, PartialEq, Eq)]
pub struct DelayUnits(pub u64);

impl Nanoseconds {
    /// The largest delay that converts exactly, 2^47 - 1.
    pub const LARGEST_EXACT: Nanoseconds = Nanoseconds((1 << 47) - 1);
}

impl DelayUnits {
    /// Stands for every delay that is too large to be told exactly.
    pub const TOO_LARGE: DelayUnits = DelayUnits(i64::MAX as u64);

    /// The eight octets of txPropagationDelay, the low octet first.
    pub fn octets(self) -> [u8; 8] {
        self.0.to_le_bytes()
    }
}

impl From<Nanoseconds> for DelayUnits {
    fn from(delay: Nanoseconds) -> DelayUnits {
        if delay.0 <= Nanoseconds::LARGEST_EXACT.0 {
            DelayUnits(delay.0 << 16)
        } else {
            DelayUnits::TOO_LARGE
        }
    }
}
