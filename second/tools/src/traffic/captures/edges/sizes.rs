//! Messages that are made by counting: every name, cause and identifier, and all that is long.

use port::table::TABLE;
use port::LONGEST_CAPTURE;

use crate::traffic::captures::lines::plain;
use crate::traffic::captures::parts::{
    complete, counted, element, error, long, notify, value, width, KNOWN,
};

/// Names near the listed ones.
const UNLISTED: [u16; 18] = [
    0x0000, 0x0002, 0x0009, 0x000A, 0x000C, 0x003F, 0x0043, 0x005F, 0x0062, 0x009F, 0x00A5, 0x0101,
    0x0103, 0x0180, 0x0300, 0x8000, 0x8002, 0xFFFF,
];

pub fn lines() -> Vec<String> {
    let parts = [
        names(),
        causes(),
        identifiers(),
        counts(),
        lengths(),
        longest(),
    ];
    parts
        .concat()
        .iter()
        .map(|message| plain(message))
        .collect()
}

/// Each name, listed or near a listed one, in each kind of record.
fn names() -> Vec<Vec<u8>> {
    let listed = TABLE.iter().map(|parameter| parameter.name);
    let names: Vec<u16> = listed.chain(UNLISTED).collect();
    let list = names.iter().flat_map(|name| name.to_be_bytes());
    let list: Vec<u8> = list.collect();
    let values = |width: usize| -> Vec<Vec<u8>> {
        names.iter().map(|name| value(*name, width, &[7])).collect()
    };
    let errors: Vec<Vec<u8>> = names.iter().map(|name| error(*name, 1)).collect();
    let status = [counted(&values(2)), counted(&errors)].concat();
    let update_result = [counted(&values(1)), counted(&errors), long(&values(2))].concat();
    vec![
        complete(&[element(0x70, &list)]),
        complete(&[element(0x71, &status)]),
        complete(&[element(0x72, &update_result)]),
        notify(&status),
    ]
}

/// Each cause, in a read error and in an update error.
fn causes() -> Vec<Vec<u8>> {
    let [low, high] = [0..=127, 128..=255].map(|causes| {
        let errors: Vec<Vec<u8>> = causes.map(|cause| error(0x0003, cause)).collect();
        [vec![0], counted(&errors)].concat()
    });
    let elements = |errors: &[u8]| complete(&[element(0x71, errors), element(0x72, errors)]);
    vec![elements(&low), elements(&high), notify(&low), notify(&high)]
}

/// Each identifier that is not known, before a name: with contents of its size, and cut short.
fn identifiers() -> Vec<Vec<u8>> {
    let unknown = (0..=255_u8).filter(|identifier| !KNOWN.contains(identifier));
    let name = element(0x70, &[0x80, 0x01]);
    let all: Vec<Vec<u8>> = unknown
        .map(|identifier| element(identifier, &[0xEE]))
        .collect();
    let mut messages = vec![complete(&[all.concat(), name.clone()])];
    for identifier in [0x00, 0x6F, 0x73, 0x7F, 0x80, 0xFF] {
        for octets in [0, 1, 255, 256, 1_000] {
            if octets < 256 || width(identifier) == 2 {
                let skipped = element(identifier, &vec![0x70; octets]);
                messages.push(complete(&[skipped.clone(), name.clone()]));
                messages.push(complete(&[skipped[..skipped.len().div_ceil(2)].to_vec()]));
            }
        }
    }
    messages
}

/// As many records as a count can tell, and fewer or more than it tells.
fn counts() -> Vec<Vec<u8>> {
    let mut messages = Vec::new();
    for count in [127, 128, 255] {
        let records = |octets: &[u8]| counted(&vec![octets.to_vec(); count]);
        let errors = records(&error(0x0002, 1));
        let values = records(&value(0x0003, 2, &[1]));
        let updates = records(&value(0x0003, 1, &[1]));
        messages.push(complete(&[element(0x71, &[&values[..], &[0]].concat())]));
        messages.push(complete(&[element(0x71, &[&[0], &errors[..]].concat())]));
        messages.push(complete(&[element(0x72, &[&updates[..], &[0]].concat())]));
        messages.push(complete(&[element(0x72, &[&[0], &errors[..]].concat())]));
    }
    messages
}

/// Values whose lengths take their high octet, and those just below.
fn lengths() -> Vec<Vec<u8>> {
    let mut messages = Vec::new();
    for octets in [254, 255, 256, 257, 448] {
        let body: Vec<u8> = (0..octets).map(|place| place as u8).collect();
        let status = [counted(&[value(0x0042, 2, &body)]), vec![0]].concat();
        messages.push(complete(&[element(0x71, &status)]));
        messages.push(notify(&status));
        let updates = [vec![0, 0], long(&[value(0x0006, 2, &body)])].concat();
        messages.push(complete(&[element(0x72, &updates)]));
        if octets < 256 {
            let updates = [counted(&[value(0x0042, 1, &body)]), vec![0]].concat();
            messages.push(complete(&[element(0x72, &updates)]));
        }
    }
    messages
}

/// The longest message and those beside it. Longer ones are refused before all else.
fn longest() -> Vec<Vec<u8>> {
    let longest = LONGEST_CAPTURE;
    let filled = |mut message: Vec<u8>, octets: usize| {
        message.resize(octets, 0x80);
        message
    };
    let names: Vec<u8> = (0..2_046_u16).flat_map(|name| name.to_be_bytes()).collect();
    vec![
        complete(&[element(0x70, &names)]),
        filled(complete(&[]), longest - 1),
        filled(complete(&[]), longest + 1),
        // Neither its type nor what is cut short is told of it.
        vec![0x04; longest + 1],
        vec![0x04; longest],
        filled(complete(&[vec![0x73, 0xFF, 0xFF]]), longest + 2),
    ]
}
