//! Captured messages that no port writes: elements in any order, unknown ones, other causes, and
//! messages around the longest one.

use port::LONGEST_CAPTURE;

use super::parts::{complete, counted, element, error, long, notify, value, KNOWN};
use crate::traffic::dice::Dice;
use crate::traffic::values;

/// Identifiers at the edges of the three classes of sizes, none of them known.
const UNKNOWN: [u8; 12] = [
    0x00, 0x01, 0x02, 0x3F, 0x6F, 0x73, 0x74, 0x7F, 0x80, 0x81, 0xC0, 0xFF,
];
/// Causes that are kept, and some beside them.
const CAUSES: [u8; 8] = [0x01, 0x02, 0x03, 0x6F, 0x00, 0x04, 0x6E, 0x70];

/// A COMPLETE or a NOTIFY whose parts are put together by chance.
pub fn message(dice: &mut Dice) -> Vec<u8> {
    if dice.one_in(5) {
        let mut message = notify(&status(dice));
        let behind = dice.pick(&[0, 0, 1, 5]);
        message.extend(dice.octets(behind));
        return message;
    }
    let mut elements: Vec<Vec<u8>> = (0..dice.below(6)).map(|_| any(dice)).collect();
    // Half of them in their order, so that more than the first is read.
    if dice.one_in(2) {
        elements.sort_by_key(|element| element[0]);
    }
    complete(&elements)
}

/// Any element: mostly a known one, sometimes with octets that are no contents of it.
fn any(dice: &mut Dice) -> Vec<u8> {
    let identifier = dice.pick(&KNOWN);
    match dice.below(12) {
        0..=3 => unknown(dice),
        4 => {
            let octets = dice.below(6);
            element(identifier, &dice.octets(octets))
        }
        _ => known(dice, identifier),
    }
}

/// An unknown element of any class.
pub fn unknown(dice: &mut Dice) -> Vec<u8> {
    let octets = dice.pick(&[0, 0, 1, 2, 3, 7, 127, 128, 255]);
    let contents = dice.octets(octets);
    element(dice.pick(&UNKNOWN), &contents)
}

/// A known element with any records.
pub fn known(dice: &mut Dice, identifier: u8) -> Vec<u8> {
    let contents = match identifier {
        0x70 => names(dice),
        0x71 => status(dice),
        _ => update_result(dice),
    };
    element(identifier, &contents)
}

fn names(dice: &mut Dice) -> Vec<u8> {
    let count = dice.pick(&[0, 1, 2, 5, 19, 40]);
    let names = (0..count).map(|_| values::name(dice).to_be_bytes());
    let mut contents = names.collect::<Vec<_>>().concat();
    if dice.one_in(12) {
        contents.push(dice.octet());
    }
    contents
}

/// Contents of element 71, or of a NOTIFY.
fn status(dice: &mut Dice) -> Vec<u8> {
    let read: Vec<_> = (0..count(dice)).map(|_| record(dice, 2)).collect();
    let errors = errors(dice);
    [counted(&read), counted(&errors)].concat()
}

/// Contents of element 72: without long updates, or with some that may be short or none at all.
fn update_result(dice: &mut Dice) -> Vec<u8> {
    let set: Vec<_> = (0..count(dice)).map(|_| record(dice, 1)).collect();
    let errors = errors(dice);
    let mut contents = [counted(&set), counted(&errors)].concat();
    if dice.one_in(2) {
        let records: Vec<_> = (0..dice.below(4)).map(|_| record(dice, 2)).collect();
        contents.extend(long(&records));
    }
    contents
}

/// How many records there are: mostly few, sometimes as many as a count can tell.
fn count(dice: &mut Dice) -> usize {
    match dice.below(60) {
        0 => dice.pick(&[254, 255]),
        _ => dice.pick(&[0, 0, 0, 1, 1, 2, 3]),
    }
}

fn errors(dice: &mut Dice) -> Vec<Vec<u8>> {
    let record = |dice: &mut Dice| {
        let name = values::name(dice);
        let any = dice.octet();
        error(
            name,
            if dice.one_in(4) {
                any
            } else {
                dice.pick(&CAUSES)
            },
        )
    };
    (0..count(dice)).map(|_| record(dice)).collect()
}

/// A record of a value of any length that its own length can tell.
fn record(dice: &mut Dice, width: usize) -> Vec<u8> {
    let name = values::name(dice);
    let lengths = if width == 1 { [254, 255] } else { [255, 256] };
    let length = match dice.below(50) {
        0 => dice.pick(&lengths),
        _ => dice.pick(&[0, 1, 1, 2, 4, 8, 10]),
    };
    value(name, width, &dice.octets(length))
}

/// A message of so many octets that it is just not too long, just too long, or far too long.
pub fn around_longest(dice: &mut Dice) -> Vec<u8> {
    let longest = LONGEST_CAPTURE;
    let lengths = [
        longest - 1,
        longest,
        longest,
        longest + 1,
        longest + 1,
        9_000,
    ];
    let octets = dice.pick(&lengths);
    let mut message = match dice.below(4) {
        0 => message(dice),
        1 => notify(&status(dice)),
        2 => many_names(dice, octets),
        _ => vec![dice.pick(&[0x00, 0x02, 0x03, 0xFF])],
    };
    // Elements of one octet in all, which may also be cut off, or stand behind a NOTIFY.
    message.resize(octets, dice.pick(&[0x80, 0x80, 0xFF]));
    message
}

/// As many names as there is room for.
fn many_names(dice: &mut Dice, octets: usize) -> Vec<u8> {
    let count = (octets - 4) / 2;
    let names = (0..count).map(|_| values::name(dice).to_be_bytes());
    complete(&[element(0x70, &names.collect::<Vec<_>>().concat())])
}
