//! The draft of a command: what its operations have changed so far, beside untouched memory.
//!
//! A draft stands for a working copy. It keeps only the differences, as pieces of the message,
//! so that nothing is copied before the reply is known to fit.

use crate::block::Block;
use crate::memory::{Port, IN_FLIGHT, PENDING, SUBSCRIBED};
use crate::operation::Operation;
use crate::profile::Profile;
use crate::reply::{Cause, Outcome, Record};
use crate::table::{SetBy, COMMIT, COUNT, PARTS, TABLE};

/// The changes of a command's operations.
#[derive(Default)]
pub struct Draft<'m> {
    /// Values set so far, as memory is to keep them; for the commit, its sums.
    values: [Option<&'m [u8]>; COUNT],
    /// The `values` of the four parts when the last commit succeeded.
    committed: [Option<&'m [u8]>; PARTS.len()],
    /// Sums of the block that runs in memory, once a read has asked for them.
    sums: Option<[u8; 4]>,
    /// One bit a name: unsubscribed at some time.
    cleared: u32,
    /// One bit a name: subscribed later than any unsubscribing.
    subscribed: u32,
}

impl<'m> Draft<'m> {
    /// Carries out one operation.
    pub fn act<'s>(&'s mut self, port: &'s Port, operation: Operation<'m>) -> Outcome<'s> {
        match operation {
            Operation::GetCapabilities => Outcome::Capabilities(port.profile.names),
            Operation::Read(name) => Outcome::Record(Record::of_read(name, self.read(port, name))),
            Operation::Set(name, value) => {
                let stored = self.set(port, name, value).map(|()| value);
                Outcome::Record(Record::of_set(name, stored))
            }
            Operation::Subscribe(name) => {
                self.subscribed |= bit(port.profile, name);
                Outcome::Silent
            }
            Operation::Unsubscribe(name) => {
                self.cleared |= bit(port.profile, name);
                self.subscribed &= !bit(port.profile, name);
                Outcome::Silent
            }
            // What is not served fails for every name, the unlisted ones too (RULES 11.26, 11.27).
            Operation::SelectiveRead(name) => {
                Outcome::Record(Record::of_read(name, Err(Cause::Unspecified)))
            }
            Operation::DeleteEntry(name) => {
                Outcome::Record(Record::of_set(name, Err(Cause::Unspecified)))
            }
            // There is no record to fail with (RULES 11.28).
            Operation::SelectiveSubscribe(_) | Operation::SelectiveUnsubscribe(_) => {
                Outcome::Silent
            }
        }
    }

    /// Makes the changes in memory.
    pub fn store(&self, port: &mut Port) {
        // The block first: it may hold old values which the values set later replace.
        if self.values[COMMIT].is_some() {
            port.run(self.committed);
        }
        for (index, value) in self.values[..COMMIT].iter().enumerate() {
            if let Some(value) = value {
                port.put(index, value);
            }
        }
        let marked = self.cleared | self.subscribed;
        for index in (0..COUNT).filter(|index| marked >> index & 1 != 0) {
            self.store_marks(port, index);
        }
    }

    fn store_marks(&self, port: &mut Port, index: usize) {
        let mut flags = port.flags(index);
        if self.cleared >> index & 1 != 0 {
            flags &= !(SUBSCRIBED | PENDING | IN_FLIGHT);
        }
        if self.subscribed >> index & 1 != 0 {
            flags |= SUBSCRIBED;
        }
        port.set_flags(index, flags);
    }

    fn read<'s>(&'s mut self, port: &'s Port, name: u16) -> Result<&'s [u8], Cause> {
        let profile = port.profile;
        let index = profile.find(name).ok_or(Cause::NotSupported)?;
        if index == COMMIT && self.values[COMMIT].is_none() {
            let running = port.value(COMMIT).and_then(Block::split);
            let running = running.ok_or(profile.absent)?;
            return Ok(self.sums.get_or_insert_with(|| running.sums()));
        }
        let kept = self.values[index].or(port.value(index));
        kept.map(|kept| profile.told(index, kept))
            .ok_or(profile.absent)
    }

    fn set(&mut self, port: &Port, name: u16, value: &'m [u8]) -> Result<(), Cause> {
        let profile = port.profile;
        let index = profile.find(name).ok_or(Cause::NotSupported)?;
        if TABLE[index].set_by != SetBy::Controller || value.len() > profile.longest_set {
            return Err(Cause::Unspecified);
        }
        let kept = profile.kept(index, value).ok_or(Cause::InvalidValue)?;
        let permitted = if index == COMMIT {
            self.commits(port, kept)
        } else {
            TABLE[index].permits(kept)
        };
        if !permitted {
            return Err(Cause::InvalidValue);
        }
        if index == COMMIT {
            self.committed = PARTS.map(|part| self.values[part]);
        }
        self.values[index] = Some(kept);
        Ok(())
    }

    /// Whether a commit with these sums succeeds. The four values keep their rules: memory is
    /// sound and the draft takes no others.
    fn commits(&self, port: &Port, sums: &[u8]) -> bool {
        let mut block = Block([&[]; PARTS.len()]);
        for (value, part) in block.0.iter_mut().zip(PARTS) {
            match self.values[part].or(port.value(part)) {
                Some(present) => *value = present,
                None => return false,
            }
        }
        block.fits() && block.sums() == sums
    }
}

/// The bit of a name; none for an unlisted one, on which marks do nothing.
fn bit(profile: &Profile, name: u16) -> u32 {
    profile.find(name).map_or(0, |index| 1 << index)
}
