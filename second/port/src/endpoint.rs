//! The five calls over one port's lent memory, and the numbers that they return.

use crate::draft::Draft;
use crate::memory::{Expiry, Port, FRESH, PENDING, SUBSCRIBED};
use crate::operation::{Malformed, Operations};
use crate::profile::Profile;
use crate::reply::{Measure, Outcome, Record, Writer};
use crate::table::{self, SetBy, COUNT, TABLE};

const COMMAND: u8 = 0x01;
const NOTIFY_ACK: u8 = 0x04;
const NOTIFY_COMPLETE: u8 = 0x05;

const LONGEST_MESSAGE: usize = 2_048;
const LEAST_NOTIFICATION_ROOM: usize = 1_600;

/// The number that a call returns, or with which a captured message is refused.
#[derive(Clone, Copy, Debug, PartialEq, Eq, PartialOrd, Ord, Hash)]
#[repr(u8)]
pub enum Number {
    /// Done.
    Done = 0,
    /// What is lent as memory is not sound in form B (RULES 15.2); for a move forward, not in the old
    /// form (RULES 23.9).
    MemoryUnsound = 1,
    /// A message of no octets (RULES 15.3).
    MessageEmpty = 2,
    /// A message of more than 2,048 octets (RULES 15.4), a captured one of more than 4,096.
    MessageTooLong = 3,
    /// A message of another type (RULES 15.5).
    UnknownType = 4,
    /// A command with a wrong L (RULES 15.6).
    WrongLength = 5,
    /// An operation that cannot be read (RULES 15.7).
    Malformed = 6,
    /// A reply that does not fit (RULES 15.8).
    ReplyTooLong = 7,
    /// No notification waits (RULES 15.9).
    Idle = 8,
    /// There is nothing to notify (RULES 15.10).
    NothingPending = 9,
    /// A notification waits (RULES 15.11).
    AlreadyWaiting = 10,
    /// A room below 1,600 octets (RULES 15.12).
    RoomTooSmall = 11,
    /// A local value that section 13 of the rules does not allow (RULES 15.13).
    NotPermitted = 12,
    /// A captured message that is neither COMPLETE nor NOTIFY.
    NotCaptured = 13,
    /// A captured message with an element or a record cut short, or with octets left over in one.
    CutShort = 14,
    /// No block runs whose gates could be told (RULES 22.3).
    NothingRunning = 15,
    /// A move into a room of another length than that of what it writes (RULES 23.9).
    RoomNotExact = 16,
    /// A move back while a name is in flight (RULES 23.9).
    InFlight = 17,
    /// No such profile as memory is to be made fresh for.
    UnknownProfile = 18,
    /// A move back of memory of profile 03, which has no old form.
    NoOldForm = 19,
    /// The notification is to be sent again.
    SendAgain = 20,
    /// The notification is given up.
    GivenUp = 21,
}

/// What a call returns.
#[derive(Clone, Copy, Debug, PartialEq, Eq)]
pub struct Answer {
    /// The number.
    pub number: Number,
    /// How many octets were written (RULES 2.5).
    pub length: usize,
    /// With number 6, where in the message the first operation stands that cannot be read
    /// (RULES 15.27); 0 with every other number (RULES 15.28).
    pub position: usize,
}

impl Answer {
    fn done(length: usize) -> Answer {
        Answer {
            length,
            ..Answer::from(Number::Done)
        }
    }
}

impl From<Number> for Answer {
    fn from(number: Number) -> Answer {
        Answer {
            number,
            length: 0,
            position: 0,
        }
    }
}

impl From<Malformed> for Answer {
    fn from(malformed: Malformed) -> Answer {
        Answer {
            position: malformed.position,
            ..Answer::from(Number::Malformed)
        }
    }
}

/// How many octets were written, or a refusal: of most calls its number alone.
impl<R: Into<Answer>> From<Result<usize, R>> for Answer {
    fn from(result: Result<usize, R>) -> Answer {
        result.map_or_else(R::into, Answer::done)
    }
}

/// Makes lent memory of 2,101 octets fresh, in form B, whatever it held. Its profile is the one with this
/// octet.
pub fn make_fresh(memory: &mut [u8], profile: u8) -> Answer {
    fresh_result(memory, profile).into()
}

fn fresh_result(memory: &mut [u8], profile: u8) -> Result<usize, Number> {
    let sized = memory.len() == FRESH.len();
    if !sized {
        return Err(Number::MemoryUnsound);
    }
    let profile = Profile::of(profile).ok_or(Number::UnknownProfile)?;
    memory.copy_from_slice(&FRESH);
    memory[0] = profile.octet;
    Ok(0)
}

/// Takes a message and writes the reply to the start of `room`.
pub fn take_message(memory: &mut [u8], message: &[u8], room: &mut [u8]) -> Answer {
    message_result(memory, message, room).into()
}

fn message_result(memory: &mut [u8], message: &[u8], room: &mut [u8]) -> Result<usize, Answer> {
    let mut port = lend(memory)?;
    let (&kind, rest) = message.split_first().ok_or(Number::MessageEmpty)?;
    if message.len() > LONGEST_MESSAGE {
        return Err(Number::MessageTooLong.into());
    }
    match kind {
        COMMAND => command(&mut port, operation_list(rest)?, room),
        NOTIFY_ACK => Ok(acknowledgement(&mut port, room)?),
        _ => Err(Number::UnknownType.into()),
    }
}

fn lend(memory: &mut [u8]) -> Result<Port<'_>, Number> {
    Port::lend(memory).ok_or(Number::MemoryUnsound)
}

fn operation_list(after_type: &[u8]) -> Result<&[u8], Number> {
    let (length, rest) = after_type.split_first_chunk().ok_or(Number::WrongLength)?;
    let list = rest.get(..usize::from(u16::from_be_bytes(*length)));
    list.filter(|list| !list.is_empty())
        .ok_or(Number::WrongLength)
}

/// Two rounds over the operations: the first finds the reply's measure, and with it whether the
/// command is carried out at all; the second writes the reply where each record belongs.
fn command(port: &mut Port, list: &[u8], room: &mut [u8]) -> Result<usize, Answer> {
    let mut trial = Draft::default();
    let mut measure = Measure::default();
    for operation in Operations::of(list, port.profile) {
        let operation = operation?;
        measure.add(&trial.act(port, operation));
    }
    let length = measure.reply_length(room.len());
    let length = length.ok_or(Number::ReplyTooLong)?;

    let mut draft = Draft::default();
    let mut writer = Writer::reply(room, &measure);
    for operation in Operations::of(list, port.profile).flatten() {
        writer.add(&draft.act(port, operation));
    }
    draft.store(port);
    Ok(length)
}

fn acknowledgement(port: &mut Port, room: &mut [u8]) -> Result<usize, Number> {
    if !port.is_waiting() {
        return Err(Number::Idle);
    }
    let first = room.first_mut().ok_or(Number::ReplyTooLong)?;
    *first = NOTIFY_COMPLETE;
    port.acknowledge();
    Ok(1)
}

/// Takes a local value of a parameter set by the port; an empty one makes it absent.
pub fn take_local_value(memory: &mut [u8], name: u16, value: &[u8]) -> Answer {
    local_result(memory, name, value).into()
}

fn local_result(memory: &mut [u8], name: u16, value: &[u8]) -> Result<usize, Number> {
    let mut port = lend(memory)?;
    let index = table::find(name).ok_or(Number::NotPermitted)?;
    let parameter = &TABLE[index];
    if parameter.set_by != SetBy::Port || !(value.is_empty() || parameter.permits(value)) {
        return Err(Number::NotPermitted);
    }
    let new = (!value.is_empty()).then_some(value);
    if port.value(index) == new {
        return Ok(0);
    }
    match new {
        Some(value) => port.put(index, value),
        None => port.remove(index),
    }
    let flags = port.flags(index);
    if flags & SUBSCRIBED != 0 {
        port.set_flags(index, flags | PENDING);
    }
    Ok(0)
}

/// Writes a notification of all pending names to the start of `room` and starts waiting.
pub fn build_notification(memory: &mut [u8], room: &mut [u8]) -> Answer {
    build_result(memory, room).into()
}

fn build_result(memory: &mut [u8], room: &mut [u8]) -> Result<usize, Number> {
    let mut port = lend(memory)?;
    if room.len() < LEAST_NOTIFICATION_ROOM {
        return Err(Number::RoomTooSmall);
    }
    if port.is_waiting() {
        return Err(Number::AlreadyWaiting);
    }
    let mut measure = Measure::default();
    pending_status(&port).for_each(|outcome| measure.add(&outcome));
    if measure.is_empty() {
        return Err(Number::NothingPending);
    }
    let mut writer = Writer::notification(room, &measure);
    pending_status(&port).for_each(|outcome| writer.add(&outcome));
    port.wait();
    Ok(measure.notification_length())
}

fn pending_status<'a>(port: &'a Port) -> impl Iterator<Item = Outcome<'a>> {
    let pending = (0..COUNT).filter(|&index| port.flags(index) & PENDING != 0);
    pending.map(|index| {
        let value = port.value(index).ok_or(port.profile.absent);
        Outcome::Record(Record::of_read(TABLE[index].name, value))
    })
}

/// Takes an expiry of the timer that runs while a notification waits.
pub fn take_expiry(memory: &mut [u8]) -> Answer {
    let number = match Port::lend(memory) {
        None => Number::MemoryUnsound,
        Some(port) if !port.is_waiting() => Number::Idle,
        Some(mut port) => match port.expire() {
            Expiry::SendAgain => Number::SendAgain,
            Expiry::GivenUp => Number::GivenUp,
        },
    };
    number.into()
}
