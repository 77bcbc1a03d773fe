//! Names and values for traffic: permitted ones, with their edges, and ones a step off the rule.

use port::table::{Parameter, Rule, SetBy, COUNT, TABLE};

use super::dice::Dice;

/// Names near the listed ones, and some that share an octet with them.
pub const UNLISTED: [u16; 16] = [
    0x0000, 0x0002, 0x0009, 0x000A, 0x000C, 0x003F, 0x0043, 0x009F, 0x00A5, 0x00FF, 0x0103, 0x0300,
    0x7FFF, 0x8000, 0x8002, 0xFFFF,
];

/// Numbers of list entries that lie at an edge.
const ENTRIES: [usize; 5] = [0, 1, 36, 37, 64];

/// A name, mostly a listed one.
pub fn name(dice: &mut Dice) -> u16 {
    if dice.one_in(10) {
        unlisted(dice)
    } else {
        TABLE[dice.below(COUNT)].name
    }
}

/// A name that is not listed.
pub fn unlisted(dice: &mut Dice) -> u16 {
    dice.pick(&UNLISTED)
}

/// The place of a parameter set by `setter`.
pub fn place(dice: &mut Dice, setter: SetBy) -> usize {
    loop {
        let index = dice.below(COUNT);
        if TABLE[index].set_by == setter {
            return index;
        }
    }
}

/// A number of list entries, often one at an edge.
pub fn entry_count(dice: &mut Dice) -> usize {
    if dice.one_in(3) {
        dice.pick(&ENTRIES)
    } else {
        dice.between(1, 8)
    }
}

/// A list of `count` proper entries.
pub fn list(dice: &mut Dice, count: usize) -> Vec<u8> {
    let longest = dice.pick(&[1_000, 1_000_000, u32::MAX]);
    let entry = |dice: &mut Dice| {
        let mut entry = vec![dice.below(3) as u8, 5, dice.octet()];
        let interval = dice.between(1, longest as usize) as u32;
        entry.extend(interval.to_be_bytes());
        entry
    };
    (0..count).flat_map(|_| entry(dice)).collect()
}

/// A value that the rule permits; for a commit, four octets.
pub fn permitted(dice: &mut Dice, parameter: &Parameter) -> Vec<u8> {
    match parameter.rule {
        Rule::Free => {
            let (least, most) = (parameter.least, parameter.most);
            let length = [least, most, dice.between(least, most)];
            let length = dice.pick(&length);
            dice.octets(length)
        }
        Rule::Octet(least, most) => {
            let any = dice.between(least.into(), most.into()) as u8;
            vec![dice.pick(&[least, most, any])]
        }
        Rule::LastFour(least, most) => {
            let any = dice.between(least as usize, most as usize) as u32;
            let number = dice.pick(&[least, most, any]);
            ending(dice, parameter.most, number)
        }
        Rule::List => {
            let count = entry_count(dice);
            list(dice, count)
        }
        Rule::Block => dice.octets(4),
    }
}

/// A value one step off the length or the rule.
pub fn off(dice: &mut Dice, parameter: &Parameter) -> Vec<u8> {
    if dice.one_in(3) {
        return off_length(dice, parameter);
    }
    match parameter.rule {
        Rule::Octet(least, most) => vec![dice.pick(&[least.wrapping_sub(1), most + 1])],
        Rule::LastFour(least, most) => {
            let over = most.wrapping_add(1);
            let number = dice.pick(&[over, if least > 0 { least - 1 } else { over }]);
            ending(dice, parameter.most, number)
        }
        Rule::List => off_list(dice),
        Rule::Free | Rule::Block => off_length(dice, parameter),
    }
}

fn off_length(dice: &mut Dice, parameter: &Parameter) -> Vec<u8> {
    let (least, most) = match parameter.rule {
        Rule::Block => (4, 4),
        _ => (parameter.least, parameter.most),
    };
    let mut value = permitted(dice, parameter);
    let length = if least > 0 && dice.one_in(2) {
        least - 1
    } else {
        most + 1
    };
    let fill = value.last().copied().unwrap_or(1);
    value.resize(length, fill);
    value
}

fn off_list(dice: &mut Dice) -> Vec<u8> {
    let count = entry_count(dice).max(1);
    let mut off = list(dice, count);
    let entry = 7 * dice.below(count);
    match dice.below(7) {
        0 => off[entry] = 3,
        1 => off[entry + 1] = 4,
        2 => off[entry + 1] = 6,
        3 => off[entry + 3..entry + 7].fill(0),
        4 => off.truncate(7 * count - 1),
        5 => off.push(0),
        _ => off = list(dice, 65),
    }
    off
}

/// A value of `length` octets whose last four are `number`.
fn ending(dice: &mut Dice, length: usize, number: u32) -> Vec<u8> {
    let mut value = dice.octets(length - 4);
    value.extend(number.to_be_bytes());
    value
}
