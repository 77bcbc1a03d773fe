//! Lines for `desk`: what ports write and what they do not, in all the forms of a line.

mod built;
mod damage;
pub mod edges;
mod lines;
mod parts;
mod played;

use std::io::{self, Write};

use port::{RELEASE_16, RELEASE_18};

use super::dice::Dice;
use super::pieces::is_cut;
use played::{Answer, Port};

/// Writes `count` lines, with what ports of both profiles write. Of some streams the last one lacks its
/// line feed.
pub fn write<W: Write>(dice: &mut Dice, count: u64, sink: &mut W) -> io::Result<()> {
    let mut ports = [&RELEASE_18, &RELEASE_16].map(Port::fresh);
    let cut = is_cut(dice);
    for left in (0..count).rev() {
        let port = &mut ports[dice.below(2)];
        sink.write_all(&line(dice, port))?;
        if !cut || left > 0 {
            sink.write_all(b"\n")?;
        }
    }
    Ok(())
}

fn line(dice: &mut Dice, port: &mut Port) -> Vec<u8> {
    match dice.below(240) {
        0..=79 => {
            let answer = port.reply(dice);
            of_answer(dice, answer)
        }
        80..=99 => {
            let answer = port.notification(dice);
            of_answer(dice, answer)
        }
        100..=139 => {
            let message = built::message(dice);
            lines::of_message(dice, &message)
        }
        140..=199 => {
            let whole = written(dice, port);
            let message = damage::damaged(dice, &whole);
            lines::of_message(dice, &message)
        }
        200..=203 => {
            let message = built::around_longest(dice);
            lines::of_message(dice, &message)
        }
        204 => lines::very_long(dice),
        _ => lines::of_no_message(dice),
    }
}

/// A line with what the port has answered.
fn of_answer(dice: &mut Dice, answer: Answer) -> Vec<u8> {
    match answer.number {
        0 => lines::of_message(dice, &answer.written),
        number => lines::of_number(number),
    }
}

/// A message to be damaged; it is empty where the port has refused what it was sent.
fn written(dice: &mut Dice, port: &mut Port) -> Vec<u8> {
    match dice.below(3) {
        0 => built::message(dice),
        1 => port.notification(dice).written,
        _ => port.reply(dice).written,
    }
}

/// How many lines of a stream hold something, so that `desk` prints at least one line for each.
pub fn held(stream: &[u8]) -> u64 {
    let held = |line: &&[u8]| {
        let mut content = line.split(|character| *character == b'#');
        let content = content.next().unwrap_or_default();
        content
            .iter()
            .any(|character| !b" \t\r".contains(character))
    };
    stream
        .split(|character| *character == b'\n')
        .filter(held)
        .count() as u64
}
