//! Replies and notifications: the records they hold, their measure, and writing them.

/// The type of a reply.
pub const COMPLETE: u8 = 0x02;
/// The type of a notification.
pub const NOTIFY: u8 = 0x03;
/// The element that lists names.
pub const CAPABILITY: u8 = 0x70;
/// The element of reads, selective ones included (RULES 12.16).
pub const STATUS: u8 = 0x71;
/// The element of sets and of deletes of entries (RULES 12.16).
pub const UPDATE_RESULT: u8 = 0x72;

/// Longest reply.
const LONGEST: usize = 4_096;
/// Longest value that a short update record can tell.
const LONGEST_SHORT: usize = u8::MAX as usize;
/// Identifier and length of an element.
const HEAD: usize = 3;

/// Why a read or a set failed.
#[derive(Clone, Copy, Debug, PartialEq, Eq)]
pub enum Cause {
    /// 01: no such name (RULES 11.3, 11.6).
    NotSupported,
    /// 02: not a value that may be set (RULES 11.8).
    InvalidValue,
    /// 03: there is no value (RULES 11.4, 14.5).
    Unavailable,
    /// 6F: not the controller's (RULES 11.7), or not served (RULES 11.26, 11.27); in profile 03 also a
    /// value too long to be set, or none to be told.
    Unspecified,
}

impl Cause {
    /// Its octet.
    pub fn octet(self) -> u8 {
        self.octets()[0]
    }

    fn octets(self) -> &'static [u8] {
        match self {
            Cause::NotSupported => &[0x01],
            Cause::InvalidValue => &[0x02],
            Cause::Unavailable => &[0x03],
            Cause::Unspecified => &[0x6F],
        }
    }
}

/// The five kinds of record, in the order in which a reply has them.
#[derive(Clone, Copy, PartialEq, Eq)]
enum Kind {
    Value,
    ReadError,
    Update,
    UpdateError,
    LongUpdate,
}

const KINDS: usize = 5;

impl Kind {
    /// Octets of the length that stands between the name and the body.
    fn width(self) -> usize {
        match self {
            Kind::ReadError | Kind::UpdateError => 0,
            Kind::Update => 1,
            Kind::Value | Kind::LongUpdate => 2,
        }
    }
}

/// A name with its value or its cause.
pub struct Record<'a> {
    kind: Kind,
    name: u16,
    body: &'a [u8],
}

impl<'a> Record<'a> {
    /// The record of a read, a selective one too.
    pub fn of_read(name: u16, value: Result<&'a [u8], Cause>) -> Record<'a> {
        match value {
            Ok(body) => Record::new(Kind::Value, name, body),
            Err(cause) => Record::new(Kind::ReadError, name, cause.octets()),
        }
    }

    /// The record of a set, or of a delete of an entry.
    pub fn of_set(name: u16, value: Result<&'a [u8], Cause>) -> Record<'a> {
        match value {
            Ok(body) if body.len() > LONGEST_SHORT => Record::new(Kind::LongUpdate, name, body),
            Ok(body) => Record::new(Kind::Update, name, body),
            Err(cause) => Record::new(Kind::UpdateError, name, cause.octets()),
        }
    }

    fn new(kind: Kind, name: u16, body: &'a [u8]) -> Record<'a> {
        Record { kind, name, body }
    }

    fn octets(&self) -> usize {
        2 + self.kind.width() + self.body.len()
    }
}

/// What one operation adds to the reply.
pub enum Outcome<'a> {
    /// Nothing.
    Silent,
    /// The list of these names.
    Capabilities(&'static [u8]),
    /// A record.
    Record(Record<'a>),
}

/// The measure of a reply: which elements it needs and how large its sections are.
#[derive(Default)]
pub struct Measure {
    /// The names that are listed, if they are asked for.
    capabilities: Option<&'static [u8]>,
    counts: [usize; KINDS],
    octets: [usize; KINDS],
}

impl Measure {
    /// Takes in what one operation adds.
    pub fn add(&mut self, outcome: &Outcome) {
        match outcome {
            Outcome::Silent => {}
            Outcome::Capabilities(names) => self.capabilities = Some(names),
            Outcome::Record(record) => {
                self.counts[record.kind as usize] += 1;
                self.octets[record.kind as usize] += record.octets();
            }
        }
    }

    /// The whole reply's length, if it may be written into a room of `room` octets.
    pub fn reply_length(&self, room: usize) -> Option<usize> {
        let mut length = 1;
        if let Some(names) = self.capabilities {
            length += HEAD + names.len();
        }
        if self.has_reads() {
            length += HEAD + self.status();
        }
        if self.has_sets() {
            length += HEAD + self.update_result();
        }
        // Long updates are told by a length and not by a count.
        let counted = &self.counts[..Kind::LongUpdate as usize];
        let countable = counted.iter().all(|&count| count <= usize::from(u8::MAX));
        (countable && length <= room.min(LONGEST)).then_some(length)
    }

    /// Whether there is no record.
    pub fn is_empty(&self) -> bool {
        self.counts == [0; KINDS]
    }

    /// The whole notification's length.
    pub fn notification_length(&self) -> usize {
        HEAD + self.status()
    }

    fn has(&self, kind: Kind) -> bool {
        self.counts[kind as usize] > 0
    }

    fn has_reads(&self) -> bool {
        self.has(Kind::Value) || self.has(Kind::ReadError)
    }

    fn has_sets(&self) -> bool {
        self.has(Kind::Update) || self.has(Kind::UpdateError) || self.has(Kind::LongUpdate)
    }

    fn status(&self) -> usize {
        1 + self.octets[Kind::Value as usize] + 1 + self.octets[Kind::ReadError as usize]
    }

    fn update_result(&self) -> usize {
        let short =
            2 + self.octets[Kind::Update as usize] + self.octets[Kind::UpdateError as usize];
        if self.has(Kind::LongUpdate) {
            short + 2 + self.octets[Kind::LongUpdate as usize]
        } else {
            short
        }
    }
}

/// Writes a measured reply: first all that stands between the records, then the records, each
/// at the next place of its section.
pub struct Writer<'r> {
    room: &'r mut [u8],
    at: usize,
    next: [usize; KINDS],
}

impl<'r> Writer<'r> {
    /// Starts a COMPLETE in a room that is large enough.
    pub fn reply(room: &'r mut [u8], measure: &Measure) -> Writer<'r> {
        let mut writer = Writer::start(room);
        writer.put(&[COMPLETE]);
        if let Some(names) = measure.capabilities {
            writer.head(CAPABILITY, names.len());
            writer.put(names);
        }
        if measure.has_reads() {
            writer.head(STATUS, measure.status());
            writer.counted([Kind::Value, Kind::ReadError], measure);
        }
        if measure.has_sets() {
            writer.head(UPDATE_RESULT, measure.update_result());
            writer.counted([Kind::Update, Kind::UpdateError], measure);
            if measure.has(Kind::LongUpdate) {
                let octets = measure.octets[Kind::LongUpdate as usize];
                writer.put(&(octets as u16).to_be_bytes());
                writer.section(Kind::LongUpdate, octets);
            }
        }
        writer
    }

    /// Starts a notification in a room that is large enough.
    pub fn notification(room: &'r mut [u8], measure: &Measure) -> Writer<'r> {
        let mut writer = Writer::start(room);
        writer.head(NOTIFY, measure.status());
        writer.counted([Kind::Value, Kind::ReadError], measure);
        writer
    }

    /// Writes what one operation adds.
    pub fn add(&mut self, outcome: &Outcome) {
        let Outcome::Record(record) = outcome else {
            return;
        };
        self.at = self.next[record.kind as usize];
        self.put(&record.name.to_be_bytes());
        let length = (record.body.len() as u16).to_be_bytes();
        self.put(&length[length.len() - record.kind.width()..]);
        self.put(record.body);
        self.next[record.kind as usize] = self.at;
    }

    fn start(room: &'r mut [u8]) -> Writer<'r> {
        Writer {
            room,
            at: 0,
            next: [0; KINDS],
        }
    }

    fn put(&mut self, octets: &[u8]) {
        self.room[self.at..self.at + octets.len()].copy_from_slice(octets);
        self.at += octets.len();
    }

    fn head(&mut self, identifier: u8, length: usize) {
        self.put(&[identifier]);
        self.put(&(length as u16).to_be_bytes());
    }

    fn counted(&mut self, kinds: [Kind; 2], measure: &Measure) {
        for kind in kinds {
            self.put(&[measure.counts[kind as usize] as u8]);
            self.section(kind, measure.octets[kind as usize]);
        }
    }

    fn section(&mut self, kind: Kind, octets: usize) {
        self.next[kind as usize] = self.at;
        self.at += octets;
    }
}
