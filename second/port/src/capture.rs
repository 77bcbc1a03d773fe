//! The reader of captured messages, COMPLETE and NOTIFY: the whole is checked first, and then handed
//! out record by record.

use crate::endpoint::Number;
use crate::octets::Octets;
use crate::reply::{Cause, CAPABILITY, COMPLETE, NOTIFY, STATUS, UPDATE_RESULT};

/// Longest message that is read.
pub const LONGEST_CAPTURE: usize = 4_096;

/// An element whose identifier is this or higher is one octet in all.
const ONE_OCTET: u8 = 0x80;
/// One whose identifier is this or higher, and below that, has a length of two octets; a lower one
/// has a length of one.
const LONG: u8 = 0x70;

/// What a captured message is.
#[derive(Clone, Copy, Debug, PartialEq, Eq)]
pub enum CaptureType {
    /// The reply to a command.
    Complete,
    /// A notification.
    Notify,
}

/// A record of a captured message.
#[derive(Clone, Copy, Debug, PartialEq, Eq)]
pub enum Captured<'m> {
    /// A name that element 70 lists.
    Name(u16),
    /// A value that was read or is notified.
    Value(u16, &'m [u8]),
    /// Why there is no such value.
    ReadError(u16, Cause),
    /// A value that was set.
    Update(u16, &'m [u8]),
    /// Why a value was not set.
    UpdateError(u16, Cause),
    /// A value that was set and stands behind the length of the long ones.
    LongUpdate(u16, &'m [u8]),
}

/// The kinds of record, in the order in which a message has them.
#[derive(Clone, Copy)]
enum Kind {
    Name,
    Value,
    ReadError,
    Update,
    UpdateError,
    LongUpdate,
}

const KINDS: [Kind; 6] = [
    Kind::Name,
    Kind::Value,
    Kind::ReadError,
    Kind::Update,
    Kind::UpdateError,
    Kind::LongUpdate,
];

impl Kind {
    /// Takes a record of this kind; none where it is cut short.
    fn take<'m>(self, octets: &mut Octets<'m>) -> Option<Captured<'m>> {
        let name = octets.number()?;
        Some(match self {
            Kind::Name => Captured::Name(name),
            Kind::Value => {
                let length = octets.number()?;
                Captured::Value(name, octets.take(length.into())?)
            }
            Kind::ReadError => Captured::ReadError(name, self.cause(octets.octet()?)),
            Kind::Update => {
                let length = octets.octet()?;
                Captured::Update(name, octets.take(length.into())?)
            }
            Kind::UpdateError => Captured::UpdateError(name, self.cause(octets.octet()?)),
            Kind::LongUpdate => {
                let length = octets.number()?;
                Captured::LongUpdate(name, octets.take(length.into())?)
            }
        })
    }

    /// What an octet reads as. That there is no value is no cause of an update error.
    fn cause(self, octet: u8) -> Cause {
        match octet {
            0x01 => Cause::NotSupported,
            0x02 => Cause::InvalidValue,
            0x03 if matches!(self, Kind::ReadError) => Cause::Unavailable,
            _ => Cause::Unspecified,
        }
    }
}

/// A captured message that is accepted.
#[derive(Clone, Copy, Debug, PartialEq, Eq)]
pub struct Capture<'m> {
    /// What it is.
    pub is: CaptureType,
    sections: Sections<'m>,
}

impl<'m> Capture<'m> {
    /// Hands out its records, one after another, in the order in which it has them.
    pub fn records(&self) -> CapturedRecords<'m> {
        CapturedRecords {
            sections: self.sections,
            at: 0,
        }
    }
}

/// Reads a captured message. One that is refused hands out nothing.
pub fn read_capture(message: &[u8]) -> Result<Capture<'_>, Number> {
    let (&first, rest) = message.split_first().ok_or(Number::MessageEmpty)?;
    if message.len() > LONGEST_CAPTURE {
        return Err(Number::MessageTooLong);
    }
    let (is, sections) = match first {
        COMPLETE => (CaptureType::Complete, complete(Octets(rest))),
        NOTIFY => (CaptureType::Notify, notify(Octets(rest))),
        _ => return Err(Number::NotCaptured),
    };
    let sections = sections.ok_or(Number::CutShort)?;
    Ok(Capture { is, sections })
}

/// The sections of a COMPLETE. Elements come in the order of their identifiers: a known one that is
/// not higher than the last that was read is skipped, as unknown ones are.
fn complete(mut rest: Octets) -> Option<Sections> {
    let mut sections = Sections::default();
    let mut last = 0;
    while let Some(identifier) = rest.octet() {
        let contents = Octets(contents(identifier, &mut rest)?);
        if identifier <= last {
            continue;
        }
        match identifier {
            CAPABILITY => sections.all(Kind::Name, contents)?,
            STATUS => sections.status(contents)?,
            UPDATE_RESULT => sections.update_result(contents)?,
            _ => continue,
        }
        last = identifier;
    }
    Some(sections)
}

/// The sections of a NOTIFY. What follows its contents is not looked at.
fn notify(mut rest: Octets) -> Option<Sections> {
    let length = rest.number()?;
    let contents = Octets(rest.take(length.into())?);
    let mut sections = Sections::default();
    sections.status(contents)?;
    Some(sections)
}

/// The contents of an element, by the size that its identifier tells.
fn contents<'m>(identifier: u8, rest: &mut Octets<'m>) -> Option<&'m [u8]> {
    let length = match identifier {
        ONE_OCTET.. => 0,
        LONG..ONE_OCTET => rest.number()?.into(),
        ..LONG => rest.octet()?.into(),
    };
    rest.take(length)
}

/// By kind, the octets of all records, each of them whole.
#[derive(Clone, Copy, Debug, Default, PartialEq, Eq)]
struct Sections<'m>([&'m [u8]; KINDS.len()]);

impl<'m> Sections<'m> {
    /// Keeps the contents of element 71, or of a NOTIFY.
    fn status(&mut self, mut contents: Octets<'m>) -> Option<()> {
        self.counted(Kind::Value, &mut contents)?;
        self.counted(Kind::ReadError, &mut contents)?;
        contents.0.is_empty().then_some(())
    }

    /// Keeps the contents of element 72.
    fn update_result(&mut self, mut contents: Octets<'m>) -> Option<()> {
        self.counted(Kind::Update, &mut contents)?;
        self.counted(Kind::UpdateError, &mut contents)?;
        if !contents.0.is_empty() {
            let length = contents.number()?;
            let long = contents.take(length.into())?;
            self.all(Kind::LongUpdate, Octets(long))?;
        }
        contents.0.is_empty().then_some(())
    }

    /// Keeps as many records as the count before them tells.
    fn counted(&mut self, kind: Kind, contents: &mut Octets<'m>) -> Option<()> {
        let count = contents.octet()?;
        let from = contents.0;
        for _ in 0..count {
            kind.take(contents)?;
        }
        self.0[kind as usize] = &from[..from.len() - contents.0.len()];
        Some(())
    }

    /// Keeps records up to the end of the octets.
    fn all(&mut self, kind: Kind, octets: Octets<'m>) -> Option<()> {
        let mut rest = octets;
        while !rest.0.is_empty() {
            kind.take(&mut rest)?;
        }
        self.0[kind as usize] = octets.0;
        Some(())
    }
}

/// The records of an accepted message.
#[derive(Clone)]
pub struct CapturedRecords<'m> {
    sections: Sections<'m>,
    at: usize,
}

impl<'m> Iterator for CapturedRecords<'m> {
    type Item = Captured<'m>;

    fn next(&mut self) -> Option<Captured<'m>> {
        while let Some(kind) = KINDS.get(self.at) {
            let mut rest = Octets(self.sections.0[self.at]);
            if let Some(record) = kind.take(&mut rest) {
                self.sections.0[self.at] = rest.0;
                return Some(record);
            }
            self.at += 1;
        }
        None
    }
}
