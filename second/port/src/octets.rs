//! Octets that are taken one after another from the front of a message or of a part of it.

/// What is left to be taken. Where there is not enough, nothing is.
#[derive(Clone, Copy, Debug, PartialEq, Eq)]
pub struct Octets<'m>(pub &'m [u8]);

impl<'m> Octets<'m> {
    /// So many octets.
    pub fn take(&mut self, count: usize) -> Option<&'m [u8]> {
        let (taken, rest) = self.0.split_at_checked(count)?;
        self.0 = rest;
        Some(taken)
    }

    /// One octet.
    pub fn octet(&mut self) -> Option<u8> {
        let (octet, rest) = self.0.split_first()?;
        self.0 = rest;
        Some(*octet)
    }

    /// A number of two octets.
    pub fn number(&mut self) -> Option<u16> {
        let (number, rest) = self.0.split_first_chunk()?;
        self.0 = rest;
        Some(u16::from_be_bytes(*number))
    }
}
