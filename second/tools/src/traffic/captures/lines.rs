//! Lines for `desk`: messages as digits in all forms, numbers, and what is neither.

use crate::traffic::dice::Dice;

const BLANKS: [&str; 6] = [" ", " ", "  ", "\t", "\r", " \t\r"];
const COMMENTS: [&str; 6] = [
    "#",
    "# 02",
    "#0 -",
    "# a comment # and more",
    "#\r",
    "#\t\u{e9}",
];
/// Lines that are numbers without a message, or nearly.
const NUMBERS: [&str; 28] = [
    "0 -",
    "2 -",
    "3 -",
    "5 -",
    "6 -",
    "7 -",
    "12 -",
    "20 -",
    "99 -",
    "00 -",
    "05 -",
    "7\t-",
    "7 \r -\t",
    " 08  -  # 8",
    "100 -",
    "000 -",
    "-",
    "- -",
    "-1 -",
    "+1 -",
    "7-",
    "7 --",
    "7 - 8",
    "7 -8",
    "a -",
    "0f -",
    "0 7 -",
    "07 08 -",
];
/// Lines that hold no message, or nearly one.
const WORDS: [&str; 28] = [
    "",
    " ",
    "\r",
    "\t \r",
    "#",
    "cut",
    "lent 7",
    "complete",
    "not a message",
    "  value 0003",
    "0",
    "7",
    "f",
    "0 ",
    "0 #",
    "0 0",
    "02 7",
    "0x02",
    "02h",
    "+02",
    "-02",
    "02,71",
    "02 71 -",
    "0 0271 -",
    "02\u{b}71",
    "02\u{a0}71",
    "\u{ff10}\u{ff12}",
    "zero",
];
/// Prefixes that do not belong before octets, or make others of them.
const PREFIXES: [&str; 8] = ["00 ", "0 0 ", "0", "7 ", "00", "0 00 ", "- ", "0x"];

/// The octets in lower-case digits, as programs print them.
pub fn plain(octets: &[u8]) -> String {
    let digit = |value: u8| char::from(b"0123456789abcdef"[usize::from(value)]);
    let pairs = octets
        .iter()
        .map(|octet| [digit(octet >> 4), digit(octet & 15)]);
    pairs.flatten().collect()
}

/// A line with a message, in one of the forms in which it can stand.
pub fn of_message(dice: &mut Dice, octets: &[u8]) -> Vec<u8> {
    match dice.below(20) {
        0..=7 => format!("0 {}", plain(octets)),
        8..=11 => plain(octets),
        12..=13 => plain(octets).to_uppercase(),
        14..=15 => with_blanks(dice, octets),
        16 => format!("0{}{}", dice.pick(&BLANKS), with_blanks(dice, octets)),
        17 => {
            let [before, behind] = [0, 1].map(|_| dice.pick(&BLANKS));
            let digits = plain(octets);
            format!("{before}{digits}{behind}{}", dice.pick(&COMMENTS))
        }
        18 => format!("{}{}", dice.pick(&PREFIXES), plain(octets)),
        _ => return faulty(dice, octets),
    }
    .into_bytes()
}

/// Pairs of digits of either case, with blanks between some.
fn with_blanks(dice: &mut Dice, octets: &[u8]) -> String {
    let often = dice.pick(&[1, 2, 5]);
    let mut text = String::new();
    for octet in octets {
        text += &match dice.one_in(2) {
            true => format!("{octet:02x}"),
            false => format!("{octet:02X}"),
        };
        if dice.one_in(often) {
            text += dice.pick(&BLANKS);
        }
    }
    text
}

/// Digits of which one is missing, one too many, parted from the other, or another character.
fn faulty(dice: &mut Dice, octets: &[u8]) -> Vec<u8> {
    let mut text = plain(octets).into_bytes();
    let place = dice.below(text.len());
    match dice.below(5) {
        0 => drop(text.remove(place)),
        1 => text.insert(place, b'0'),
        2 => text.insert(place, b' '),
        3 => text[place] = dice.pick(b"gG/:@`-+.,_\0\x0b\x7f\x80\xff"),
        _ => text.insert(place, b'#'),
    }
    text
}

/// A line as a program prints it that has no reply: a number and a dash.
pub fn of_number(number: u8) -> Vec<u8> {
    format!("{number} -").into_bytes()
}

/// A line without a message.
pub fn of_no_message(dice: &mut Dice) -> Vec<u8> {
    match dice.below(8) {
        0..=2 => dice.pick(&NUMBERS).into(),
        3..=5 => dice.pick(&WORDS).into(),
        6 => {
            let comment = dice.pick(&COMMENTS);
            format!("{}{comment}", dice.pick(&BLANKS)).into_bytes()
        }
        _ => junk(dice),
    }
}

/// Octets that are hardly text, behind nothing, behind a message or behind the start of a comment.
fn junk(dice: &mut Dice) -> Vec<u8> {
    let octets = dice.between(1, 30);
    let junk = dice
        .octets(octets)
        .into_iter()
        .filter(|octet| *octet != b'\n');
    let before = dice.pick(&["", "02", "02 #", "0 02#", "#"]);
    before.bytes().chain(junk).collect()
}

/// A line that is far longer than a message: octets, octets with blanks, blanks, or anything else.
pub fn very_long(dice: &mut Dice) -> Vec<u8> {
    let octets = dice.pick(&[5_000, 20_000, 40_000]);
    let pair = dice.pick(&["02", "02 ", "80\t", "fF \r"]);
    let end = dice.pick(&["", "", "0", "#", "x", " "]);
    match dice.below(6) {
        0..=2 => format!("{}{end}", pair.repeat(octets)),
        3 => format!("0 02{}{end}", " ".repeat(2 * octets)),
        4 => format!("12{}-{end}", "\t".repeat(2 * octets)),
        _ => format!("02{}", dice.pick(&["x", "#", "\u{e9}"]).repeat(octets)),
    }
    .into_bytes()
}
