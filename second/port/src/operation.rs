//! The operations of a command, as they follow one another in its octets (RULES 10.10).

use crate::octets::Octets;
use crate::profile::Profile;

/// One operation.
#[derive(Clone, Copy, Debug, PartialEq, Eq)]
pub enum Operation<'m> {
    /// Code 1.
    GetCapabilities,
    /// Code 2, with a name.
    Read(u16),
    /// Code 3, with a name and a value.
    Set(u16, &'m [u8]),
    /// Code 4, with a name.
    Subscribe(u16),
    /// Code 5, with a name.
    Unsubscribe(u16),
    /// Code 6, with a name. Its value is not kept, nor those of the three below: nothing depends on
    /// them (RULES 11.26 to 11.28).
    SelectiveRead(u16),
    /// Code 7, with a name.
    SelectiveSubscribe(u16),
    /// Code 8, with a name.
    SelectiveUnsubscribe(u16),
    /// Code 9, with a name.
    DeleteEntry(u16),
}

/// An operation with an unknown code, or cut short by the end of the list.
#[derive(Clone, Copy, Debug, PartialEq, Eq)]
pub struct Malformed {
    /// Where its code stands in the message (RULES 15.27).
    pub position: usize,
}

/// Where the operations of a command begin in its message (RULES 10.1).
const FIRST: usize = 3;

/// Hands out the operations of a list; nothing more follows a malformed one.
#[derive(Clone)]
pub struct Operations<'m> {
    rest: Octets<'m>,
    /// Where the list ends in the message.
    end: usize,
    /// The highest code that there is.
    last_code: u8,
}

impl<'m> Operations<'m> {
    /// Starts at the first octet of `list`, as controllers of a profile send it.
    pub fn of(list: &'m [u8], profile: &Profile) -> Operations<'m> {
        Operations {
            rest: Octets(list),
            end: FIRST + list.len(),
            last_code: profile.last_code,
        }
    }

    /// The operation of a code. It and `next` stand in the loops that ask them: the ports are timed
    /// beside each other, and with a call for each operation this one takes 29 of 100 instructions
    /// more for reads.
    #[inline(always)]
    fn body(&mut self, code: u8) -> Option<Operation<'m>> {
        if code > self.last_code {
            return None;
        }
        Some(match code {
            1 => Operation::GetCapabilities,
            2 => Operation::Read(self.rest.number()?),
            3 => {
                let (name, value) = self.name_and_value()?;
                Operation::Set(name, value)
            }
            4 => Operation::Subscribe(self.rest.number()?),
            5 => Operation::Unsubscribe(self.rest.number()?),
            6 => Operation::SelectiveRead(self.name_and_value()?.0),
            7 => Operation::SelectiveSubscribe(self.name_and_value()?.0),
            8 => Operation::SelectiveUnsubscribe(self.name_and_value()?.0),
            9 => Operation::DeleteEntry(self.name_and_value()?.0),
            _ => return None,
        })
    }

    /// What follows the code of a set, and of each code laid out as one (RULES 10.15 to 10.18).
    fn name_and_value(&mut self) -> Option<(u16, &'m [u8])> {
        let name = self.rest.number()?;
        let length = self.rest.number()?;
        Some((name, self.rest.take(length.into())?))
    }
}

impl<'m> Iterator for Operations<'m> {
    type Item = Result<Operation<'m>, Malformed>;

    #[inline(always)]
    fn next(&mut self) -> Option<Self::Item> {
        let position = self.end - self.rest.0.len();
        let code = self.rest.octet()?;
        let operation = self.body(code);
        if operation.is_none() {
            self.rest = Octets(&[]);
        }
        Some(operation.ok_or(Malformed { position }))
    }
}
