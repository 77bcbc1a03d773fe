//! The program `desk`: lines with captured messages in, their records out.

use std::io::{self, Read, Write};

use port::table::{self, COUNT};
use port::{read_capture, CaptureType, Captured, Cause};

use crate::line::{Content, Line};
use crate::stream::{Blocks, Lines};

/// The parameters in words, in the order of the table.
const WORDS: [&str; COUNT] = [
    "txPropagationDelay",
    "GateEnabled",
    "AdminBaseTime",
    "AdminControlListLength",
    "AdminControlList",
    "AdminCycleTime",
    "TickGranularity",
    "SupportedListMax",
    "lldpV2PortConfigAdminStatusV2",
    "lldpV2LocChassisIdSubtype",
    "lldpV2LocChassisId",
    "lldpV2LocPortIdSubtype",
    "lldpV2LocPortId",
    "lldpV2RemChassisIdSubtype",
    "lldpV2RemChassisId",
    "lldpV2RemPortIdSubtype",
    "lldpV2RemPortId",
    "lldpTTL",
    "commit",
];

/// Reads all lines of `input` and prints what they hold on `output`.
pub fn run<R: Read, W: Write>(input: R, output: W) -> io::Result<()> {
    let mut blocks = Blocks::new(input);
    let mut lines = Lines::new(output);
    let mut line = Line::new();
    loop {
        let mut rest = blocks.next(&mut lines)?;
        if rest.is_empty() {
            // The last line may lack its line feed; if it does not, this one is empty.
            print(&line, &mut lines)?;
            return lines.write_out();
        }
        while let Some(behind) = line.take(rest) {
            print(&line, &mut lines)?;
            line.clear();
            rest = behind;
        }
    }
}

/// Prints what a line holds.
fn print<W: Write>(line: &Line, lines: &mut Lines<W>) -> io::Result<()> {
    match line.content() {
        Content::Nothing => Ok(()),
        Content::Octets(message) => print_message(message, lines),
        Content::Number(number) => lines.numbered(number, &[]),
        Content::Other => lines.text("not a message"),
    }
}

fn print_message<W: Write>(message: &[u8], lines: &mut Lines<W>) -> io::Result<()> {
    let capture = match read_capture(message) {
        Ok(capture) => capture,
        Err(number) => return lines.numbered(number as u8, &[]),
    };
    lines.text(match capture.is {
        CaptureType::Complete => "complete",
        CaptureType::Notify => "notify",
    })?;
    for record in capture.records() {
        print_record(record, lines);
        lines.end_line()?;
    }
    Ok(())
}

fn print_record<W: Write>(record: Captured, lines: &mut Lines<W>) {
    match record {
        Captured::Name(name) => print_name("  name ", name, lines),
        Captured::Value(name, value) => print_value("  value ", name, value, lines),
        Captured::ReadError(name, cause) => print_error("  read-error ", name, cause, lines),
        Captured::Update(name, value) => print_value("  update ", name, value, lines),
        Captured::UpdateError(name, cause) => print_error("  update-error ", name, cause, lines),
        Captured::LongUpdate(name, value) => print_value("  long-update ", name, value, lines),
    }
}

/// A name, in digits and in words.
fn print_name<W: Write>(kind: &str, name: u16, lines: &mut Lines<W>) {
    lines.part(kind);
    lines.hex(&name.to_be_bytes());
    lines.part(" ");
    lines.part(table::find(name).map_or("unknown", |place| WORDS[place]));
}

fn print_value<W: Write>(kind: &str, name: u16, value: &[u8], lines: &mut Lines<W>) {
    print_name(kind, name, lines);
    lines.part(" ");
    lines.hex(value);
}

fn print_error<W: Write>(kind: &str, name: u16, cause: Cause, lines: &mut Lines<W>) {
    print_name(kind, name, lines);
    lines.part(" ");
    lines.hex(&[cause.octet()]);
    lines.part(match cause {
        Cause::NotSupported => " not-supported",
        Cause::InvalidValue => " invalid-value",
        Cause::Unavailable => " unavailable",
        Cause::Unspecified => " protocol-error",
    });
}
