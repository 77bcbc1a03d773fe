//! The program `desk`: what it prints for the lines of all forms, as a child process.

use std::io::Read;
use std::time::{Duration, Instant};

use crate::bridge::{Broken, Drip};
use crate::process::{assert_quiet_without_reader, assert_refused, lines, run, text, Peer};
use crate::process::{BRIDGE, DESK};
use kit::hex;

const OTHER: &str = "not a message";

/// Asserts what one line prints, with a line feed behind it, without it, and with a line before it.
fn assert_prints(line: &[u8], printed: &[&str]) {
    let shown = String::from_utf8_lossy(&line[..line.len().min(80)]).into_owned();
    assert_eq!(lines(DESK, line), printed, "{shown:?}");
    let ended = [line, b"\n"].concat();
    assert_eq!(lines(DESK, &ended), printed, "{shown:?}");
    let between = [b"7 -\n", line, b"\n8 -\n"].concat();
    let expected = [&["7 -"], printed, &["8 -"]].concat();
    assert_eq!(lines(DESK, &between), expected, "{shown:?}");
}

#[test]
fn records_of_every_kind() {
    let message = "02 70 0004 0003 1234 71 000F 02 0004 0000 00A4 0002 0078 01 0002 03 \
                   72 0015 01 0041 01 07 01 8001 02 000A 0006 0002 ABCD FFFF 0000";
    let expected = [
        "complete",
        "  name 0003 GateEnabled",
        "  name 1234 unknown",
        "  value 0004 AdminBaseTime -",
        "  value 00a4 lldpTTL 0078",
        "  read-error 0002 unknown 03 unavailable",
        "  update 0041 lldpV2LocChassisIdSubtype 07",
        "  update-error 8001 commit 02 invalid-value",
        "  long-update 0006 AdminControlList abcd",
        "  long-update ffff unknown -",
    ];
    assert_prints(message.as_bytes(), &expected);
    let notification = b"03 0011 02 00A0 0001 07 0001 0000 02 0008 03 00A3 6F";
    let expected = [
        "notify",
        "  value 00a0 lldpV2RemChassisIdSubtype 07",
        "  value 0001 txPropagationDelay -",
        "  read-error 0008 TickGranularity 03 unavailable",
        "  read-error 00a3 lldpV2RemPortId 6f protocol-error",
    ];
    assert_prints(notification, &expected);
    assert_prints(b"02", &["complete"]);
    assert_prints(b"03 0002 0000", &["notify"]);
}

#[test]
fn every_name_has_its_word() {
    let words = [
        (0x0001, "txPropagationDelay"),
        (0x0003, "GateEnabled"),
        (0x0004, "AdminBaseTime"),
        (0x0005, "AdminControlListLength"),
        (0x0006, "AdminControlList"),
        (0x0007, "AdminCycleTime"),
        (0x0008, "TickGranularity"),
        (0x000B, "SupportedListMax"),
        (0x0040, "lldpV2PortConfigAdminStatusV2"),
        (0x0041, "lldpV2LocChassisIdSubtype"),
        (0x0042, "lldpV2LocChassisId"),
        (0x0060, "lldpV2LocPortIdSubtype"),
        (0x0061, "lldpV2LocPortId"),
        (0x00A0, "lldpV2RemChassisIdSubtype"),
        (0x00A1, "lldpV2RemChassisId"),
        (0x00A2, "lldpV2RemPortIdSubtype"),
        (0x00A3, "lldpV2RemPortId"),
        (0x00A4, "lldpTTL"),
        (0x8001, "commit"),
    ];
    // All names that there are, in messages of 2,000.
    for first in (0..=0xFFFF_u32).step_by(2_000) {
        let names: Vec<u32> = (first..=0xFFFF).take(2_000).collect();
        let contents: String = names.iter().map(|name| format!("{name:04x}")).collect();
        let message = format!("0270{:04x}{contents}", 2 * names.len());
        let printed = lines(DESK, message.as_bytes());
        assert_eq!(
            (printed[0].as_str(), printed.len()),
            ("complete", 1 + names.len())
        );
        for (name, printed) in names.iter().zip(&printed[1..]) {
            let word = words.iter().find(|(known, _)| known == name);
            let word = word.map_or("unknown", |(_, word)| word);
            assert_eq!(*printed, format!("  name {name:04x} {word}"));
        }
    }
}

#[test]
fn every_cause_has_its_word() {
    for cause in 0..=255_u8 {
        let shown = |known: &[u8]| match if known.contains(&cause) { cause } else { 0x6F } {
            1 => "01 not-supported",
            2 => "02 invalid-value",
            3 => "03 unavailable",
            _ => "6f protocol-error",
        };
        let line = format!("02 71 0005 00 01 0003 {cause:02x} 72 0005 00 01 0003 {cause:02x}");
        let expected = [
            "complete".to_string(),
            format!("  read-error 0003 GateEnabled {}", shown(&[1, 2, 3])),
            format!("  update-error 0003 GateEnabled {}", shown(&[1, 2])),
        ];
        assert_eq!(lines(DESK, line.as_bytes()), expected);
    }
}

#[test]
fn refused_messages_print_their_number() {
    for (line, number) in [
        ("00", "13 -"),
        ("04 01", "13 -"),
        ("FF", "13 -"),
        ("03", "14 -"),
        ("02 71", "14 -"),
        ("02 71 0003 00 00 00", "14 -"),
        ("0 0271", "14 -"),
    ] {
        assert_prints(line.as_bytes(), &[number]);
    }
    for (octets, printed) in [
        (4_095, "complete"),
        (4_096, "complete"),
        (4_097, "3 -"),
        (9_000, "3 -"),
    ] {
        let message = format!("02{}", "80".repeat(octets - 1));
        assert_prints(message.as_bytes(), &[printed]);
        assert_prints(format!("0 {message}").as_bytes(), &[printed]);
    }
    assert_prints("ff".repeat(4_096).as_bytes(), &["13 -"]);
    assert_prints("ff".repeat(4_097).as_bytes(), &["3 -"]);
}

/// The lines of `bridge`, octets in all their forms, and numbers.
#[test]
fn lines_of_every_form() {
    let value = ["complete", "  value 0003 GateEnabled 0f"];
    for line in [
        "027100070100030001 0f 00",
        "0 0271000701000300010f00",
        "0\t \r02710007 01 0003 0001 0f 00\r",
        "0271000701000300010F00",
        " \t\r02 71 00 07 01 00 03 00 01 0F 00 \t\r",
        "02  71 0007010003\r0001\t0f00",
        "0271000701000300010f00#0",
        "0 0271000701000300010f00 # value # of GateEnabled \u{e9}\0",
    ] {
        assert_prints(line.as_bytes(), &value);
    }
    for (line, number) in [
        ("0 -", "0 -"),
        ("00 -", "0 -"),
        ("2 -", "2 -"),
        ("02 -", "2 -"),
        ("09 \t -", "9 -"),
        ("10\r-", "10 -"),
        ("99 -", "99 -"),
        (" 7 - \t\r", "7 -"),
        ("13 -# -", "13 -"),
        ("13 - # 14 -", "13 -"),
    ] {
        assert_prints(line.as_bytes(), &[number]);
    }
    for line in ["", " ", "\t\r ", "#", "# 02", " \r# not a message", "##"] {
        assert_prints(line.as_bytes(), &[]);
    }
}

#[test]
fn what_is_not_a_message() {
    let digits = "0|7|a|0 |0 # 02|0 0|0 0 02|0 000|0 02 7|000|02 7|02 7 1|0 2|1 02|7 02|a 02";
    let numbers =
        "f -|0f -|a0 -|1a -|100 -|000 -|0 0 -|0 00 -|0 12 -|02 71 -|12-|0-|-|--|- -|-1|+1 -|\
                   -1 -|1 --|1 - -|1 -2|1 - 2|1 -1|12 -0|1 +|0 -02|12 - 02";
    let words =
        "0x02|02h|02,71|02:71|02.|complete|not a message|cut|lent 5|g0|0g|02 0G|2 x|02\u{b}71|\
                 02\u{c}|02\u{a0}71|\u{feff}02|\u{ff10}|02 \0|\0|\0#|é|02\\n";
    for line in [digits, numbers, words]
        .iter()
        .flat_map(|all| all.split('|'))
    {
        assert_prints(line.as_bytes(), &[OTHER]);
    }
    assert_prints(b"\xFF", &[OTHER]);
    assert_prints(b"02\x8071", &[OTHER]);
    // The characters beside the digits, one at a time in a pair.
    for character in (0..=255_u8).filter(|c| !b"\n#".contains(c)) {
        let digit = character.is_ascii_hexdigit();
        for line in [[b'0', b'2', b'8', character], [b'0', b'2', character, b'0']] {
            let printed = lines(DESK, &line);
            assert_eq!(printed[0] == OTHER, !digit, "{line:02x?}");
        }
    }
}

#[test]
fn the_next_line_is_read() {
    let input = b"02\n\n0\nxyz\n3 -\r\n  # c\n13\n02 7\n03 0002 0000\n\n\n0 02\n4";
    let expected = [
        "complete", OTHER, OTHER, "3 -", "13 -", OTHER, "notify", "complete", OTHER,
    ];
    assert_eq!(lines(DESK, input), expected);
    assert!(lines(DESK, b"").is_empty());
    assert!(lines(DESK, b"\n\n").is_empty());
}

/// A line without an end: octets, octets with many blanks, what is no message, a comment, a number.
#[test]
fn a_line_without_an_end() {
    const LENGTH: usize = 3_000_000;
    let blanks = |text: &str| format!("{text}{}", " \t\r".repeat(LENGTH / 3));
    for (line, printed) in [
        ("02".repeat(LENGTH / 2), &["3 -"][..]),
        (format!("0 {}", "ff ".repeat(LENGTH / 3)), &["3 -"]),
        ("02".repeat(LENGTH / 2) + "0", &[OTHER]),
        ("02".repeat(LENGTH / 2) + "x", &[OTHER]),
        ("x".repeat(LENGTH), &[OTHER]),
        ("\0".repeat(LENGTH), &[OTHER]),
        (format!("02#{}", "x".repeat(LENGTH)), &["complete"]),
        (format!("{}-", blanks("12")), &["12 -"]),
        (format!("{}02", blanks("0")), &["complete"]),
        (format!("{}02{}", blanks("02"), blanks("")), &["14 -"]),
        (blanks(""), &[]),
        (blanks("7"), &[OTHER]),
    ] {
        assert_prints(line.as_bytes(), printed);
    }
    let spread = format!("02{}", format!("{}80", " ".repeat(500)).repeat(4_095));
    assert_prints(spread.as_bytes(), &["complete"]);
    assert_prints(
        format!("{spread}{}80", " ".repeat(70_000)).as_bytes(),
        &["3 -"],
    );
}

/// A line far longer than the memory that the program may have.
#[test]
fn a_line_is_not_kept() {
    let limited = ["-c", "ulimit -v 49152 && exec \"$0\"", DESK];
    for (text, printed) in [
        ("0280", "3 -\n"),
        ("0280 \t", "3 -\n"),
        ("x", "not a message\n"),
    ] {
        let line = text.repeat(96 * 1024 * 1024 / text.len());
        let output = run("sh", &limited, line.as_bytes());
        assert_eq!(
            (crate::process::text(&output.stdout), output.status.code()),
            (printed, Some(0))
        );
    }
}

#[test]
fn long_lines_take_no_time() {
    let began = Instant::now();
    let comment = format!("02 # {}\n", "#".repeat(4_000_000));
    let line = format!("{}\n{comment}", "02 ".repeat(4_000_000));
    assert_eq!(
        lines(DESK, line.repeat(3).as_bytes()),
        ["3 -", "complete"].repeat(3)
    );
    assert!(began.elapsed() < Duration::from_secs(10));
}

#[test]
fn what_the_bridge_prints_is_read() {
    let frames = hex("0003010003 0006010003020003 0000 0006010003020002 0004 01 0001 01");
    let printed = lines(BRIDGE, &frames).join("\n");
    let read = lines(DESK, printed.as_bytes());
    let value = ["5 -", "complete", "  value 0003 GateEnabled 00", "2 -"];
    let error = [
        "complete",
        "  read-error 0002 unknown 01 not-supported",
        "complete",
    ];
    assert_eq!(read[..7], [&value[..], &error].concat());
    assert_eq!((read.len(), read[25].as_str()), (26, "  name 8001 commit"));
}

#[test]
fn a_peer_on_a_pipe_gets_each_answer() {
    let mut peer = Peer::of(DESK);
    for (written, answers) in [
        ("02\n", &["complete\n"][..]),
        ("0 0271000501\n", &["14 -\n"]),
        // Half a line gives no answer, and those of the lines before it are not held back.
        ("x\n02 71 0007 01", &["not a message\n"]),
        (
            " 0003 0001 00 00\n",
            &["complete\n", "  value 0003 GateEnabled 00\n"],
        ),
        ("\n\n5 -\n", &["5 -\n"]),
    ] {
        peer.write(written.as_bytes());
        for answer in answers {
            assert_eq!(peer.line(), *answer);
        }
    }
    peer.write(b"03 0002 00 00");
    assert_eq!(peer.end(), "notify");
}

#[test]
fn input_may_come_in_drops() {
    let octets = b"0 027100070100030001 00 00\n# c\n12 -\n0 0\n02 # end";
    let mut output = Vec::new();
    programs::desk::run(Drip::of(octets), &mut output).unwrap();
    let expected = "complete\n  value 0003 GateEnabled 00\n12 -\nnot a message\ncomplete\n";
    assert_eq!(text(&output), expected);
}

#[test]
fn a_read_error_is_told_after_the_lines_that_are_due() {
    let mut output = Vec::new();
    let result = programs::desk::run(b"5 -\n02".chain(Broken), &mut output);
    assert_eq!(result.unwrap_err().to_string(), "broken");
    assert_eq!(text(&output), "5 -\n");
}

#[test]
fn wrong_use() {
    assert_refused(DESK, &["anything"]);
    assert_quiet_without_reader(DESK, &[], &b"0271000701000300010000\n".repeat(20_000));
}
