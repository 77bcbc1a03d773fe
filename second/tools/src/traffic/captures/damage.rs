//! Damage done to captured messages: octets changed, lost or added, lengths that are wrong, elements
//! that come again, too late or beside others.

use super::built::{known, unknown};
use super::parts::{complete, elements, width, KNOWN};
use crate::traffic::dice::Dice;

/// A message with one thing changed.
pub fn damaged(dice: &mut Dice, message: &[u8]) -> Vec<u8> {
    match elements(message) {
        Some(parts) if dice.one_in(2) => with_elements(dice, parts),
        _ => with_octets(dice, message.to_vec()),
    }
}

fn with_octets(dice: &mut Dice, mut message: Vec<u8>) -> Vec<u8> {
    if message.is_empty() {
        return vec![dice.octet()];
    }
    // Types, lengths and counts stand near the front more often than elsewhere.
    let last = message.len() - 1;
    let near = last.min(dice.pick(&[3, 8, 16, last]));
    let place = dice.below(near + 1);
    match dice.below(8) {
        0 => message[place] = dice.octet(),
        1 => message[place] = message[place].wrapping_add(1),
        2 => message[place] = message[place].wrapping_sub(1),
        3 => message.truncate(place.max(1)),
        4 => message.truncate(last.max(1)),
        5 => drop(message.remove(place)),
        6 => message.insert(place, dice.octet()),
        _ => {
            let behind = dice.between(1, 3);
            message.extend(dice.octets(behind));
        }
    }
    if message.is_empty() {
        message.push(dice.octet());
    }
    message
}

fn with_elements(dice: &mut Dice, mut parts: Vec<Vec<u8>>) -> Vec<u8> {
    let place = dice.below(parts.len() + 1);
    let one = dice.below(parts.len().max(1));
    match dice.below(8) {
        0 | 1 => parts.insert(place, unknown(dice)),
        2 => {
            let identifier = dice.pick(&KNOWN);
            parts.insert(place, known(dice, identifier));
        }
        3 => parts.reverse(),
        4 => {
            let again = parts.get(one).cloned().unwrap_or_default();
            parts.insert(place, again);
        }
        5 => parts.extend(unknown_cut(dice)),
        _ => {
            if let Some(part) = parts.get_mut(one) {
                change_length(dice, part);
            }
        }
    }
    complete(&parts)
}

/// An unknown element of which the end is missing, unless it is one octet in all.
fn unknown_cut(dice: &mut Dice) -> Option<Vec<u8>> {
    let mut element = unknown(dice);
    let kept = dice.between(1, element.len());
    element.truncate(kept);
    Some(element)
}

/// Tells a length of an element that is not its own, by one or by any number.
fn change_length(dice: &mut Dice, element: &mut [u8]) {
    let last = width(element[0]);
    if last > 0 {
        let octet = &mut element[last];
        *octet = match dice.below(3) {
            0 => octet.wrapping_add(1),
            1 => octet.wrapping_sub(1),
            _ => dice.octet(),
        };
    }
}
