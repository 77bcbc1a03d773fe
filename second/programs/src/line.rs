//! A line of the desk's input, taken as it comes: what is kept of it does not grow with its length.

use port::LONGEST_CAPTURE;

/// Octets that are kept of a line: one more than the longest message, so that one which is too long
/// is still told from it.
const KEPT: usize = LONGEST_CAPTURE + 1;

/// What a line holds, without its comment and the blanks at its ends.
pub enum Content<'a> {
    /// Nothing.
    Nothing,
    /// Octets; of more than are read the first ones.
    Octets(&'a [u8]),
    /// A number without a message.
    Number(u8),
    /// Anything else.
    Other,
}

/// How far a line has been read.
#[derive(Clone, Copy)]
enum State {
    /// Blanks, if anything.
    Start,
    /// One digit: half of a pair, or a number.
    Digit(u8),
    /// A number of one digit and blanks.
    Number(u8),
    /// One pair of decimal digits, which may be a number.
    Pair(u8),
    /// Such a pair and blanks.
    PairAndBlanks(u8),
    /// Whole pairs.
    Pairs,
    /// Whole pairs, and the first digit of one more.
    Half(u8),
    /// A number and a dash, and blanks.
    Dash(u8),
    /// What no line may hold.
    Other,
}

/// A line, as far as it has come.
pub struct Line {
    state: State,
    /// What comes is behind `#`.
    comment: bool,
    octets: [u8; KEPT],
    count: usize,
}

impl Line {
    /// A line of which nothing has come.
    pub fn new() -> Line {
        Line {
            state: State::Start,
            comment: false,
            octets: [0; KEPT],
            count: 0,
        }
    }

    /// Begins a new line.
    pub fn clear(&mut self) {
        self.state = State::Start;
        self.comment = false;
        self.count = 0;
    }

    /// Takes text to the end of the line, and gives what follows it; none where the line goes on.
    pub fn take<'t>(&mut self, text: &'t [u8]) -> Option<&'t [u8]> {
        let mut rest = text;
        loop {
            if self.comment || matches!(self.state, State::Other) {
                let end = rest.iter().position(|character| *character == b'\n')?;
                return Some(&rest[end + 1..]);
            }
            if matches!(self.state, State::Pairs) {
                rest = self.take_pairs(rest);
            }
            let (&character, behind) = rest.split_first()?;
            rest = behind;
            match character {
                b'\n' => return Some(rest),
                b'#' => self.comment = true,
                _ => self.state = self.step(character),
            }
        }
    }

    /// What the line holds, once all of it has come.
    pub fn content(&self) -> Content<'_> {
        match self.state {
            State::Start => Content::Nothing,
            State::Pair(_) | State::PairAndBlanks(_) | State::Pairs => {
                Content::Octets(&self.octets[..self.count])
            }
            State::Dash(number) => Content::Number(number),
            State::Digit(_) | State::Number(_) | State::Half(_) | State::Other => Content::Other,
        }
    }

    /// Takes pairs that stand side by side, as long as there is room for them, and gives the rest.
    fn take_pairs<'t>(&mut self, text: &'t [u8]) -> &'t [u8] {
        let (pairs, _) = text.as_chunks();
        let room = &mut self.octets[self.count..];
        let mut taken = 0;
        for ([high, low], octet) in pairs.iter().zip(room) {
            let pair = DIGITS[usize::from(*high)] << 4 | DIGITS[usize::from(*low)];
            let Ok(pair) = u8::try_from(pair) else {
                break;
            };
            *octet = pair;
            taken += 1;
        }
        self.count += taken;
        &text[2 * taken..]
    }

    /// The state after a character that ends neither line nor content.
    fn step(&mut self, character: u8) -> State {
        let digit = u8::try_from(DIGITS[usize::from(character)]).ok();
        let blank = matches!(character, b' ' | b'\t' | b'\r');
        match (self.state, digit) {
            (State::Start, Some(digit)) => State::Digit(digit),
            (State::Digit(high @ 0..=9), Some(low @ 0..=9)) => {
                self.keep(high << 4 | low);
                State::Pair(10 * high + low)
            }
            (State::Digit(high) | State::Half(high), Some(low)) => {
                self.keep(high << 4 | low);
                State::Pairs
            }
            (State::Number(0) | State::Pair(_), Some(digit)) => State::Half(digit),
            (State::PairAndBlanks(_) | State::Pairs, Some(digit)) => State::Half(digit),
            (State::Digit(number @ 0..=9), None) if blank => State::Number(number),
            (State::Pair(number), None) if blank => State::PairAndBlanks(number),
            (State::Number(number) | State::PairAndBlanks(number), None) if character == b'-' => {
                State::Dash(number)
            }
            // Behind a single digit blanks are the end of it, or of all.
            (State::Digit(_) | State::Half(_), None) => State::Other,
            (state, None) if blank => state,
            _ => State::Other,
        }
    }

    fn keep(&mut self, octet: u8) {
        if let Some(place) = self.octets.get_mut(self.count) {
            *place = octet;
            self.count += 1;
        }
    }
}

/// No value of a digit: more than an octet, also beside a digit.
const NO_DIGIT: u16 = 0x100;

/// The value of each hexadecimal digit.
static DIGITS: [u16; 256] = {
    let mut digits = [NO_DIGIT; 256];
    let mut value = 0;
    while value < 16 {
        digits[b"0123456789abcdef"[value] as usize] = value as u16;
        digits[b"0123456789ABCDEF"[value] as usize] = value as u16;
        value += 1;
    }
    digits
};
