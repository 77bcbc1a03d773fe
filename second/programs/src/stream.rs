//! Input and output in blocks: pieces that tell their own length, blocks as they come, and lines with
//! hexadecimal.

use std::fmt::Arguments;
use std::io::{self, ErrorKind, Read, Write};

/// Room for the longest piece and for as much again.
const INPUT_BLOCK: usize = 128 * 1024;
/// Lines are written out when they fill this much.
const OUTPUT_BLOCK: usize = 64 * 1024;

/// What the next piece of the input is.
pub enum Piece<'a> {
    /// A whole piece: its head, and the body whose length the head's last two octets tell.
    Whole(&'a [u8], &'a [u8]),
    /// The input ends within a piece.
    Cut,
    /// The input ends.
    End,
}

/// Reads pieces from a source.
pub struct Pieces<R> {
    source: R,
    head: usize,
    block: Vec<u8>,
    from: usize,
    to: usize,
}

impl<R: Read> Pieces<R> {
    /// Pieces with heads of `head` octets, at least two.
    pub fn new(source: R, head: usize) -> Pieces<R> {
        Pieces {
            source,
            head: head.max(2),
            block: vec![0; INPUT_BLOCK],
            from: 0,
            to: 0,
        }
    }

    /// The next piece. Before waiting for input, all lines are written out, so that a peer which
    /// waits for its answer gets it.
    pub fn next<W: Write>(&mut self, lines: &mut Lines<W>) -> io::Result<Piece<'_>> {
        while self.to - self.from < self.needed() {
            lines.write_out()?;
            if !self.fill()? {
                let cut = self.from < self.to;
                return Ok(if cut { Piece::Cut } else { Piece::End });
            }
        }
        let piece = &self.block[self.from..self.from + self.needed()];
        self.from += piece.len();
        let (head, body) = piece.split_at(self.head);
        Ok(Piece::Whole(head, body))
    }

    /// Octets of the next piece, as far as they can be told.
    fn needed(&self) -> usize {
        let held = &self.block[self.from..self.to];
        let length = held.get(self.head - 2..self.head);
        self.head + length.map_or(0, |two| usize::from(two[0]) << 8 | usize::from(two[1]))
    }

    /// Reads once; false at the end of the input.
    fn fill(&mut self) -> io::Result<bool> {
        self.block.copy_within(self.from..self.to, 0);
        self.to -= self.from;
        self.from = 0;
        let count = read_once(&mut self.source, &mut self.block[self.to..])?;
        self.to += count;
        Ok(count > 0)
    }
}

/// Reads once, however often that is interrupted before; 0 at the end of the input.
fn read_once<R: Read>(source: &mut R, room: &mut [u8]) -> io::Result<usize> {
    loop {
        match source.read(room) {
            Err(error) if error.kind() == ErrorKind::Interrupted => {}
            result => return result,
        }
    }
}

/// Reads blocks from a source, whatever they hold.
pub struct Blocks<R> {
    source: R,
    block: Vec<u8>,
}

impl<R: Read> Blocks<R> {
    /// Blocks of `source`.
    pub fn new(source: R) -> Blocks<R> {
        Blocks {
            source,
            block: vec![0; INPUT_BLOCK],
        }
    }

    /// The next block, which is empty at the end of the input. Before waiting for it, all lines are
    /// written out, as they are for pieces.
    pub fn next<W: Write>(&mut self, lines: &mut Lines<W>) -> io::Result<&[u8]> {
        lines.write_out()?;
        let count = read_once(&mut self.source, &mut self.block)?;
        Ok(&self.block[..count])
    }
}

/// Collects lines and writes them out in blocks.
pub struct Lines<W> {
    sink: W,
    due: Vec<u8>,
}

impl<W: Write> Lines<W> {
    /// Lines for `sink`.
    pub fn new(sink: W) -> Lines<W> {
        Lines {
            sink,
            due: Vec::with_capacity(2 * OUTPUT_BLOCK),
        }
    }

    /// A line of the given text.
    pub fn text(&mut self, text: &str) -> io::Result<()> {
        self.part(text);
        self.end_line()
    }

    /// A line of the given text, which is put together in its place.
    pub fn formatted(&mut self, text: Arguments) -> io::Result<()> {
        self.due.write_fmt(text)?;
        self.end_line()
    }

    /// A part of a line: text.
    pub fn part(&mut self, text: &str) {
        self.due.extend_from_slice(text.as_bytes());
    }

    /// A line of the given octets.
    pub fn octets(&mut self, octets: &[u8]) -> io::Result<()> {
        self.hex(octets);
        self.end_line()
    }

    /// A line of a number under 100, a space, and the given octets.
    pub fn numbered(&mut self, number: u8, octets: &[u8]) -> io::Result<()> {
        if number >= 10 {
            self.due.push(b'0' + number / 10);
        }
        self.due.extend_from_slice(&[b'0' + number % 10, b' ']);
        self.octets(octets)
    }

    /// Writes out what is due.
    pub fn write_out(&mut self) -> io::Result<()> {
        let written = self.sink.write_all(&self.due);
        self.due.clear();
        written.and_then(|()| self.sink.flush())
    }

    /// A part of a line: octets, or `-` where there are none.
    pub fn hex(&mut self, octets: &[u8]) {
        if octets.is_empty() {
            self.due.push(b'-');
            return;
        }
        let at = self.due.len();
        self.due.resize(at + 2 * octets.len(), 0);
        let (pairs, _) = self.due[at..].as_chunks_mut();
        for (pair, &octet) in pairs.iter_mut().zip(octets) {
            *pair = PAIRS[usize::from(octet)];
        }
    }

    /// Ends a line.
    pub fn end_line(&mut self) -> io::Result<()> {
        self.due.push(b'\n');
        if self.due.len() >= OUTPUT_BLOCK {
            self.write_out()?;
        }
        Ok(())
    }
}

/// Two lower-case digits for each octet.
static PAIRS: [[u8; 2]; 256] = {
    let digits = b"0123456789abcdef";
    let mut pairs = [[0; 2]; 256];
    let mut octet = 0;
    while octet < 256 {
        pairs[octet] = [digits[octet >> 4], digits[octet & 15]];
        octet += 1;
    }
    pairs
};
