//! The table of the 19 parameters: names, lengths, who sets them, value rules and body rooms.

/// Octets of one port's memory.
pub const SIZE: usize = 2_100;
/// Number of parameters.
pub const COUNT: usize = 19;
/// Octets of one entry in the table of contents.
pub const ENTRY: usize = 6;
/// Where the timer's state stands: 0 idle, 1 waiting.
pub const TIMER: usize = COUNT * ENTRY;
/// Where expiries are counted.
pub const EXPIRIES: usize = TIMER + 1;
/// Where the bodies start.
pub const BODIES: usize = TIMER + 2;

/// Place of GateEnabled in the table.
pub const GATE_ENABLED: usize = 1;
/// Places of the four values that make a block.
pub const PARTS: [usize; 4] = [2, LIST_LENGTH, LIST, 5];
/// Place of AdminControlListLength in the table.
pub const LIST_LENGTH: usize = 3;
/// Place of AdminControlList in the table.
pub const LIST: usize = 4;
/// Place of SupportedListMax in the table.
pub const LIST_MAX: usize = 7;
/// Place of the commit in the table; its room holds the running block.
pub const COMMIT: usize = 18;

/// Who may give a parameter its value.
#[derive(Clone, Copy, Debug, PartialEq, Eq)]
pub enum SetBy {
    /// The port itself, by a local value.
    Port,
    /// The controller, by a set operation.
    Controller,
    /// Nobody; the value is there from the start.
    Nobody,
}

/// What a value of permitted length has to keep.
#[derive(Clone, Copy, Debug, PartialEq, Eq)]
pub enum Rule {
    /// Nothing.
    Free,
    /// Its one octet lies between the two, both included.
    Octet(u8, u8),
    /// Its last four octets, as a number, lie between the two, both included.
    LastFour(u32, u32),
    /// It consists of list entries.
    List,
    /// It is a block with form and fit.
    Block,
}

/// One row of the table.
#[derive(Clone, Copy, Debug)]
pub struct Parameter {
    /// Its name.
    pub name: u16,
    /// Its smallest length.
    pub least: usize,
    /// Its largest length, which is also the size of its room.
    pub most: usize,
    /// Who sets it.
    pub set_by: SetBy,
    /// Its value rule.
    pub rule: Rule,
    /// Where its room starts in memory.
    pub start: usize,
}

/// The 19 parameters in their order.
pub static TABLE: [Parameter; COUNT] = {
    use {Rule::*, SetBy::*};
    let mut table = [
        row(0x0001, (8, 8), Port, Free),
        row(0x0003, (1, 1), Controller, Octet(0, 1)),
        row(0x0004, (10, 10), Controller, LastFour(0, 999_999_999)),
        row(0x0005, (4, 4), Controller, LastFour(0, 64)),
        row(0x0006, (0, 448), Controller, List),
        row(0x0007, (8, 8), Controller, LastFour(1, u32::MAX)),
        row(0x0008, (4, 4), Port, Free),
        row(0x000B, (4, 4), Nobody, LastFour(64, 64)),
        row(0x0040, (1, 1), Controller, Octet(1, 4)),
        row(0x0041, (1, 1), Controller, Octet(1, 7)),
        row(0x0042, (1, 255), Controller, Free),
        row(0x0060, (1, 1), Controller, Octet(1, 7)),
        row(0x0061, (1, 255), Controller, Free),
        row(0x00A0, (1, 1), Port, Octet(1, 7)),
        row(0x00A1, (1, 255), Port, Free),
        row(0x00A2, (1, 1), Port, Octet(1, 7)),
        row(0x00A3, (1, 255), Port, Free),
        row(0x00A4, (2, 2), Port, Free),
        row(0x8001, (29, 470), Controller, Block),
    ];
    let mut start = BODIES;
    let mut index = 0;
    while index < COUNT {
        table[index].start = start;
        start += table[index].most;
        index += 1;
    }
    assert!(start == SIZE);
    table
};

const fn row(name: u16, (least, most): (usize, usize), set_by: SetBy, rule: Rule) -> Parameter {
    Parameter {
        name,
        least,
        most,
        set_by,
        rule,
        start: 0,
    }
}

/// Marks an octet that is no listed name's low octet.
const UNLISTED: u8 = u8::MAX;

/// The places of names in the table. All names but the commit's have a high octet of 0; this gives
/// their places by the low octet.
#[derive(Debug)]
pub struct Places([u8; 256]);

/// The places of all names.
static PLACES: Places = Places::but(None);

impl Places {
    /// The places of all names but one, which is then none.
    pub const fn but(unlisted: Option<usize>) -> Places {
        let mut places = [UNLISTED; 256];
        let mut index = 0;
        while index < COMMIT {
            assert!(TABLE[index].name < 256);
            places[TABLE[index].name as usize] = index as u8;
            index += 1;
        }
        if let Some(index) = unlisted {
            places[TABLE[index].name as usize] = UNLISTED;
        }
        Places(places)
    }

    /// The place of `name`.
    pub fn find(&self, name: u16) -> Option<usize> {
        let place = match self.0.get(usize::from(name)) {
            Some(&UNLISTED) => return None,
            Some(&place) => usize::from(place),
            None if name == TABLE[COMMIT].name => COMMIT,
            None => return None,
        };
        Some(place)
    }
}

/// The place of `name` in the table, whether it is listed by every profile or not.
pub fn find(name: u16) -> Option<usize> {
    PLACES.find(name)
}
