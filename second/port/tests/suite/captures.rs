//! The reader of captured messages: each number, and each choice that it makes.

use kit::hex;
use port::{read_capture, CaptureType, Captured, Cause};

/// What a message reads as: its type and its records, in words; or the number.
pub fn read(message: &[u8]) -> Result<Vec<String>, u8> {
    let capture = read_capture(message).map_err(|number| number as u8)?;
    let first = match capture.is {
        CaptureType::Complete => "complete",
        CaptureType::Notify => "notify",
    };
    let records = capture.records().map(words);
    Ok([first.into()].into_iter().chain(records).collect())
}

fn words(record: Captured) -> String {
    let octets = |value: &[u8]| value.iter().map(|o| format!("{o:02x}")).collect::<String>();
    let cause = |cause: Cause| octets(&[cause.octet()]);
    match record {
        Captured::Name(name) => format!("name {name:04x}"),
        Captured::Value(name, value) => format!("value {name:04x} {}", octets(value)),
        Captured::ReadError(name, why) => format!("read-error {name:04x} {}", cause(why)),
        Captured::Update(name, value) => format!("update {name:04x} {}", octets(value)),
        Captured::UpdateError(name, why) => format!("update-error {name:04x} {}", cause(why)),
        Captured::LongUpdate(name, value) => format!("long-update {name:04x} {}", octets(value)),
    }
}

/// Asserts what a message reads as, without its type; the number where that is given.
fn assert_reads(message: &str, records: &[&str]) {
    let read = read(&hex(message));
    let read = read.map(|words| words[1..].to_vec());
    assert_eq!(
        read,
        Ok(records.iter().map(|r| r.to_string()).collect()),
        "{message}"
    );
}

fn assert_refused(message: &str, number: u8) {
    assert_eq!(read(&hex(message)), Err(number), "{message}");
}

/// A message that has a record of each kind, and two of some.
const EACH_KIND: &str = "02 70 0004 0003 8001 71 000A 01 0003 0001 00 01 0002 01 \
                         72 0015 01 0003 01 01 01 0002 02 000A 0006 0002 AABB 0006 0000";

#[test]
fn records_are_handed_out_in_their_order() {
    assert_reads(
        EACH_KIND,
        &[
            "name 0003",
            "name 8001",
            "value 0003 00",
            "read-error 0002 01",
            "update 0003 01",
            "update-error 0002 02",
            "long-update 0006 aabb",
            "long-update 0006 ",
        ],
    );
    let two = "02 71 0014 02 0003 0001 01 0007 0000 03 0001 03 0002 01 0003 6F";
    let records = ["value 0003 01", "value 0007 ", "read-error 0001 03"];
    let more = ["read-error 0002 01", "read-error 0003 6f"];
    assert_reads(two, &[&records[..], &more].concat());
    assert_eq!(read(&hex("02")), Ok(vec!["complete".into()]));
    let notification = hex("03 0007 01 00A0 0001 07 00");
    let expected = vec!["notify".to_string(), "value 00a0 07".into()];
    assert_eq!(read(&notification), Ok(expected));
}

#[test]
fn number_2_nothing() {
    assert_refused("", 2);
}

#[test]
fn number_3_over_4096_octets() {
    // Elements of one octet, so that any number of them is accepted.
    for (length, expected) in [
        (4_095, Ok(())),
        (4_096, Ok(())),
        (4_097, Err(3)),
        (70_000, Err(3)),
    ] {
        let mut message = vec![0x80; length];
        message[0] = 2;
        assert_eq!(read(&message).map(drop), expected, "{length}");
        message[..3].copy_from_slice(&[3, 0, 2]);
        message[3..5].fill(0);
        assert_eq!(read(&message).map(drop), expected, "{length}");
    }
    // It comes before the type and what is cut short.
    assert_eq!(read(&[0xFF; 4_097]), Err(3));
    assert_eq!(read(&[0x02; 4_097]), Err(3));
}

#[test]
fn number_13_every_other_type() {
    for first in (0..=255).filter(|first| ![2, 3].contains(first)) {
        for rest in [&[][..], &[0x71], &[0; 4_095]] {
            assert_eq!(read(&[&[first], rest].concat()), Err(13), "{first:02x}");
        }
    }
}

#[test]
fn number_14_every_cut() {
    let whole = hex(EACH_KIND);
    // Between elements it may end, and then reads as a shorter message.
    let ends = [1, 8, 21, whole.len()];
    for kept in 1..=whole.len() {
        let read = read(&whole[..kept]);
        assert_eq!(read.is_ok(), ends.contains(&kept), "{kept} octets");
        assert!(read.is_ok() || read == Err(14));
    }
    let notification = hex("03 000A 01 0003 0001 00 01 0002 01");
    for kept in 1..notification.len() {
        assert_eq!(read(&notification[..kept]), Err(14), "{kept} octets");
    }
    assert!(read(&notification).is_ok());
}

/// One octet less, or one more, in the contents of every known element.
#[test]
fn number_14_wrong_lengths() {
    for message in [
        "02 70 0001 00",
        "02 70 0003 000300",
        "02 71 0000",
        "02 71 0001 00",
        "02 71 0003 00 00 00",
        "02 71 0006 01 0003 0001 00",
        "02 71 0006 01 0003 0002 00",
        "02 71 0007 01 0003 0002 00 00",
        "02 71 0007 01 0003 0000 00 00",
        "02 71 0004 00 01 0002",
        "02 71 0006 00 01 0002 01 00",
        "02 71 0008 00 01 0002 01 0002 01",
        "02 71 0005 00 02 0002 01",
        "02 72 0000",
        "02 72 0001 00",
        "02 72 0003 00 00 00",
        "02 72 0006 01 0003 02 01 00",
        "02 72 0006 01 0003 00 01 00",
        "02 72 0004 00 01 0002",
        "02 72 0005 00 00 0000 00",
        "02 72 0008 00 00 0005 0006 0001",
        "02 72 0009 00 00 0004 0006 0001 AA",
        "02 72 0009 00 00 0006 0006 0001 AA",
        "02 72 0009 00 00 0005 0006 0002 AA",
        "02 72 0009 00 00 0005 0006 0000 AA",
        "02 72 000A 00 00 0005 0006 0001 AA 00",
        "02 72 0006 00 00 0002 0006",
        "03 0000",
        "03 0001 00",
        "03 0003 00 00 00",
        "03 0006 01 0003 0001 00 00",
        "03 0008 01 0003 0001 00 00 00",
    ] {
        assert_refused(message, 14);
    }
    assert_reads("02 70 0002 0003", &["name 0003"]);
    assert_reads(
        "02 72 0009 00 00 0005 0006 0001 AA",
        &["long-update 0006 aa"],
    );
    assert_reads("03 0007 01 0003 0001 00 00", &["value 0003 00"]);
}

#[test]
fn elements_may_be_empty_of_records() {
    assert_reads("02 70 0000 71 0002 00 00 72 0002 00 00", &[]);
    assert_reads("02 72 0004 00 00 0000", &[]);
    assert_reads("03 0002 00 00", &[]);
}

#[test]
fn long_updates_may_be_short() {
    for length in [0, 1, 254, 255, 256, 448] {
        let value = vec![0xAB; length];
        let record = [&[0, 6][..], &(length as u16).to_be_bytes(), &value].concat();
        let contents = [&[0, 0][..], &(record.len() as u16).to_be_bytes(), &record].concat();
        let message = [
            &[2, 0x72][..],
            &(contents.len() as u16).to_be_bytes(),
            &contents,
        ]
        .concat();
        let expected = format!("long-update 0006 {}", "ab".repeat(length));
        assert_eq!(read(&message), Ok(vec!["complete".into(), expected]));
    }
}

/// What stands before and behind an element that is skipped.
fn around(element: &[u8]) -> Vec<u8> {
    let [before, behind] = ["02 71 0007 01 0003 0001 00 00", "72 0006 01 0003 01 01 00"].map(hex);
    [&before, element, &behind].concat()
}

#[test]
fn unknown_elements_are_skipped_by_their_sizes() {
    let expected = read(&around(&[]));
    assert_eq!(expected.as_ref().map(Vec::len), Ok(3));
    for identifier in (0..=255).filter(|i| !(0x70..=0x72).contains(i)) {
        let lengths: [&[u8]; 3] = match identifier {
            0x00..=0x6F => [&[0], &[3], &[255]],
            0x70..=0x7F => [&[0, 0], &[0, 3], &[2, 1]],
            0x80..=0xFF => [&[], &[], &[]],
        };
        for length in lengths {
            let octets = length.iter().fold(0, |n, o| n * 256 + usize::from(*o));
            let element = [&[identifier], length, &vec![0xEE; octets]].concat();
            assert_eq!(read(&around(&element)), expected, "{element:02x?}");
            // The last of all, whole and cut.
            let last = [&[2], &element[..]].concat();
            assert_eq!(read(&last), Ok(vec!["complete".into()]), "{element:02x?}");
            for kept in 2..last.len() {
                assert_eq!(read(&last[..kept]), Err(14), "{:02x?}", &last[..kept]);
            }
        }
    }
}

#[test]
fn known_elements_that_come_again_or_late_are_skipped_unread() {
    let names = ["70 0002 0003", "70 0000", "70 0003 000000"];
    let reads = ["71 0005 00 01 0002 01", "71 0002 0000", "71 0001 FF"];
    let sets = ["72 0005 00 01 0002 02", "72 0002 0000", "72 0001 FF"];
    // What comes too late is not looked at: whole, empty or without form.
    let [name, read, set] = ["name 0003", "read-error 0002 01", "update-error 0002 02"];
    for late in names.iter().chain(&reads).chain(&sets) {
        assert_reads(&format!("02 {} {late}", sets[0]), &[set]);
        assert_reads(&format!("02 {} {late} {late}", sets[1]), &[]);
    }
    for late in names.iter().chain(&reads) {
        let message = format!("02 {} {late} {}", reads[0], sets[0]);
        assert_reads(&message, &[read, set]);
    }
    for late in names {
        let message = format!("02 {} {late} {} {late} {}", names[0], reads[0], sets[0]);
        assert_reads(&message, &[name, read, set]);
    }
    // It is cut short all the same.
    assert_refused(&format!("02 {} 70 0003 0000", reads[0]), 14);
    assert_refused(&format!("02 {} 71 00", reads[0]), 14);
    // An element that is skipped does not make another one late: neither an unknown higher one nor
    // a known one which came late itself.
    let message = format!(
        "02 73 0001 FF {} 7F 0000 {} 80 {}",
        names[0], reads[0], sets[0]
    );
    assert_reads(&message, &[name, read, set]);
    assert_reads(
        &format!("02 {} {} {}", reads[0], names[0], sets[0]),
        &[read, set],
    );
    // The first of an identifier is read, and so refused, whatever the others are.
    assert_refused(&format!("02 {} {}", names[2], names[0]), 14);
    assert_refused(&format!("02 {} {}", reads[2], reads[0]), 14);
    assert_refused(&format!("02 {} {}", sets[2], sets[0]), 14);
}

#[test]
fn what_follows_a_notification_is_not_looked_at() {
    let notification = "03 0007 01 0003 0001 00 00";
    for behind in [
        "",
        "00",
        "71",
        "72 FFFF",
        "71 0005 00 01 0002 01",
        "03 0002 0000",
    ] {
        assert_reads(&format!("{notification} {behind}"), &["value 0003 00"]);
    }
    // Its contents are no elements, and an element of a COMPLETE is no NOTIFY.
    assert_refused("03 71 0002 0000", 14);
    assert_refused("02 0002 0000 71", 14);
}

#[test]
fn causes_read_as_those_that_are_known() {
    for cause in 0..=255_u8 {
        let of_read = if [1, 2, 3].contains(&cause) {
            cause
        } else {
            0x6F
        };
        let of_update = if [1, 2].contains(&cause) { cause } else { 0x6F };
        let read_error = format!("read-error 0003 {of_read:02x}");
        assert_reads(
            &format!("02 71 0005 00 01 0003 {cause:02x}"),
            &[&read_error],
        );
        assert_reads(&format!("03 0005 00 01 0003 {cause:02x}"), &[&read_error]);
        let update_error = format!("update-error 0003 {of_update:02x}");
        assert_reads(
            &format!("02 72 0005 00 01 0003 {cause:02x}"),
            &[&update_error],
        );
    }
}

#[test]
fn any_names_are_handed_out() {
    let names: Vec<u16> = (0..2_046).map(|n| 32 * n).collect();
    let contents: Vec<u8> = names.iter().flat_map(|n| n.to_be_bytes()).collect();
    let message = [&hex("02 70 0FFC")[..], &contents].concat();
    assert_eq!(message.len(), 4_096);
    let names = names.iter().map(|name| format!("name {name:04x}"));
    let expected: Vec<String> = ["complete".into()].into_iter().chain(names).collect();
    assert_eq!(read(&message), Ok(expected));
}

#[test]
fn counts_up_to_255() {
    for count in [0, 1, 127, 128, 254, 255_u8] {
        for (element, [value, error], kinds) in [
            (
                "71",
                ["0003 0001 AA", "0003 02"],
                ["value 0003 aa", "read-error 0003 02"],
            ),
            (
                "72",
                ["0003 01 AA", "0003 02"],
                ["update 0003 aa", "update-error 0003 02"],
            ),
        ] {
            let of = |record: &str| [vec![count], hex(record).repeat(count.into())].concat();
            let contents = [of(value), of(error)].concat();
            let head = [&hex("02")[..], &hex(element)].concat();
            let length = (contents.len() as u16).to_be_bytes();
            let message = [&head[..], &length, &contents].concat();
            let expected: Vec<&str> = kinds
                .iter()
                .flat_map(|kind| vec![*kind; count.into()])
                .collect();
            let records = read(&message).unwrap();
            assert_eq!(records[1..], expected, "{count} in {element}");
        }
    }
}
