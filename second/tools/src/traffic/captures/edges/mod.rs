//! Lines for `desk` that lie at the edges of what it reads, where chance seldom goes.
//!
//! They are the same at all times, and are stored in front of some by chance, so that each wrong
//! reader of `second/wrong` prints other lines. A message stands behind what is tried with it.

mod forms;
mod messages;
mod sizes;

use std::io::{self, Write};

/// Writes the first `count` lines.
pub fn write<W: Write>(count: u64, sink: &mut W) -> io::Result<()> {
    let forms = forms::FORMS.iter().map(|line| line.to_vec());
    let messages = messages::MESSAGES
        .iter()
        .map(|line| line.as_bytes().to_vec());
    let sizes = sizes::lines().into_iter().map(String::into_bytes);
    for (mut line, _) in forms.chain(messages).chain(sizes).zip(0..count) {
        line.push(b'\n');
        sink.write_all(&line)?;
    }
    Ok(())
}
