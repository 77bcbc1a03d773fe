//! The ten examples from the bench, each from fresh memory, and those that a program runs.

use kit::{command, delete_entry, hex, list, read, schedule, selective_read, set, sets};
use kit::{Bench, Reply};
use port::{DelayUnits, Nanoseconds};

/// The names of the table, in its order.
const NAMES: &str = "0001 0003 0004 0005 0006 0007 0008 000B 0040 0041 0042 0060 0061 \
                     00A0 00A1 00A2 00A3 00A4 8001";

fn reply_to(message: &str) -> (u8, Vec<u8>) {
    Bench::fresh().send(&hex(message))
}

#[test]
fn example_1_a_read() {
    assert_eq!(
        reply_to("01 0003 02 0003"),
        (0, hex("02 71 0007 01 0003 0001 00 00"))
    );
}

#[test]
fn example_2_a_set() {
    assert_eq!(
        reply_to("01 0006 03 0003 0001 01"),
        (0, hex("02 72 0006 01 0003 01 01 00"))
    );
}

#[test]
fn example_3_an_unlisted_name() {
    assert_eq!(
        reply_to("01 0003 02 0002"),
        (0, hex("02 71 0005 00 01 0002 01"))
    );
}

#[test]
fn example_4_a_subscription() {
    assert_eq!(reply_to("01 0003 04 0001"), (0, hex("02")));
}

#[test]
fn example_5_capabilities() {
    let (number, reply) = reply_to("01 0001 01");
    assert_eq!((number, reply.len()), (0, 42));
    assert_eq!(reply, hex(&format!("02 70 0026 {NAMES}")));
}

fn example_schedule(cycle: &str) -> String {
    format!(
        "03 0004 000A 00000000000000000000 03 0005 0004 00000001 \
         03 0006 0007 00 05 FF 000F4240 03 0007 0008 {cycle}"
    )
}

#[test]
fn example_6_a_commit_that_just_fits() {
    let mut bench = Bench::fresh();
    bench.done(&hex(&example_schedule("00000001 000003E8")));
    let reply = bench.done(&hex("03 8001 0004 0282 13B5 02 8001"));
    let parsed = Reply::parse(&reply);
    assert_eq!(parsed.updates, [(0x8001, hex("0282 13B5"))]);
    assert_eq!(parsed.values, [(0x8001, hex("0282 13B5"))]);
    let block = "00000000000000000000 00000001 0005FF000F4240 00000001000003E8";
    assert_eq!(bench.memory[1_630..1_659], hex(block));
    assert_eq!(bench.memory[108..114], hex("8001 01 00 001D"));
}

#[test]
fn example_7_a_commit_that_never_succeeds() {
    let mut bench = Bench::fresh();
    bench.done(&hex(&example_schedule("00000001 000003E9")));
    for sums in 0..=u16::MAX {
        let [high, low] = sums.to_be_bytes();
        // Right sums are 0283 and some second sum, so trying these covers the right ones.
        let reply = bench.done(&set(0x8001, &[0x02, 0x83, high, low]));
        assert_eq!(reply, hex("02 72 0005 00 01 8001 02"));
    }
    assert_eq!(bench.done(&read(0x8001)), hex("02 71 0005 00 01 8001 03"));
}

#[test]
fn examples_8_and_9_delays() {
    let octets = |nanoseconds| DelayUnits::from(Nanoseconds(nanoseconds)).octets().to_vec();
    assert_eq!(octets(0), hex("0000000000000000"));
    assert_eq!(octets(1), hex("00 00 01 00 00 00 00 00"));
    assert_eq!(octets((1 << 47) - 1), hex("00 00 FF FF FF FF FF 7F"));
    assert_eq!(octets(1 << 47), hex("FF FF FF FF FF FF FF 7F"));
    assert_eq!(octets(u64::MAX), hex("FF FF FF FF FF FF FF 7F"));
}

#[test]
fn example_10_malformed_operations() {
    assert_eq!(reply_to("01 0001 0A").0, 6);
    assert_eq!(reply_to("01 0003 0A 0003").0, 6);
    assert_eq!(reply_to("01 0006 03 0003 0002 01").0, 6);
    assert_eq!(reply_to("01 0005 03 0003 0001").0, 6);
    assert_eq!(reply_to("01 000E 03 0004 000A 000000000000000000").0, 6);
}

#[test]
fn messages_of_2048_and_2049_octets() {
    let mut message = command(&read(0x0003));
    message.resize(2_048, 0xFF);
    let (number, reply) = Bench::fresh().send(&message);
    assert_eq!((number, reply), (0, hex("02 71 0007 01 0003 0001 00 00")));
    message.push(0);
    assert_eq!(Bench::fresh().send(&message).0, 3);

    let mut full = [read(0x0003).repeat(255), read(0x0002).repeat(255)].concat();
    full.extend(hex("04 0001").repeat(171));
    full.extend([1, 1]);
    let message = command(&full);
    assert_eq!(message.len(), 2_048);
    assert_eq!(Bench::fresh().send(&message).0, 0);
}

#[test]
fn counts_of_255_and_256() {
    for (operation, record) in [
        (read(0x0003), 5),
        (read(0x0002), 3),
        (set(0x0003, &[1]), 4),
        (set(0x0002, &[1]), 3),
        (set(0x0003, &[2]), 3),
        (selective_read(0x0003, &[]), 3),
        (selective_read(0x0002, &[1, 2]), 3),
        (delete_entry(0x0006, &[]), 3),
        (delete_entry(0xFFFF, &[1, 2]), 3),
    ] {
        let reply = Bench::fresh().done(&operation.repeat(255));
        assert_eq!(reply.len(), 1 + 3 + 2 + 255 * record);
        let (number, _) = Bench::fresh().send(&command(&operation.repeat(256)));
        assert_eq!(number, 7);
    }
    let both = [read(0x0003).repeat(255), read(0x0002).repeat(255)].concat();
    let parsed = Reply::parse(&Bench::fresh().done(&both));
    assert_eq!((parsed.values.len(), parsed.read_errors.len()), (255, 255));
}

#[test]
fn lists_of_36_and_37_entries() {
    let short = list(36, 1);
    assert_eq!(short.len(), 252);
    let reply = Bench::fresh().done(&set(0x0006, &short));
    assert_eq!(
        reply,
        [hex("02 72 0101 01 0006 FC"), short, vec![0]].concat()
    );

    let long = list(37, 1);
    assert_eq!(long.len(), 259);
    let mut bench = Bench::fresh();
    let reply = bench.done(&set(0x0006, &long));
    let front = hex("02 72 010B 00 00 0107 0006 0103");
    assert_eq!(reply, [front, long.clone()].concat());
    let reply = bench.done(&read(0x0006));
    assert_eq!(
        reply,
        [hex("02 71 0109 01 0006 0103"), long, vec![0]].concat()
    );
}

#[test]
fn several_long_updates_in_one_reply() {
    let (first, second) = (list(37, 1), list(38, 2));
    let mut bench = Bench::fresh();
    let reply = bench.done(&[set(0x0006, &first), set(0x0006, &second)].concat());
    // The inner length counts 4 + 259 and 4 + 266 octets, that of the element four more.
    let front = hex("02 72 0219 00 00 0215 0006 0103");
    assert_eq!(
        reply,
        [front, first, hex("0006 010A"), second.clone()].concat()
    );
    let reply = bench.done(&read(0x0006));
    assert_eq!(
        reply,
        [hex("02 71 0110 01 0006 010A"), second, vec![0]].concat()
    );
}

#[test]
fn all_six_kinds_in_one_reply() {
    let long = list(37, 1);
    let operations = [
        vec![1],
        read(0x0003),
        read(0x0002),
        set(0x0003, &[1]),
        set(0x0002, &[1]),
        set(0x0006, &long),
    ];
    let reply = |gate: &str| {
        let read = format!("71 000A 01 0003 0001 {gate} 01 0002 01");
        let set = "72 0112 01 0003 01 01 01 0002 01 0107 0006 0103";
        let front = hex(&format!("02 70 0026 {NAMES} {read} {set}"));
        [front, long.clone()].concat()
    };
    assert_eq!(Bench::fresh().done(&operations.concat()), reply("00"));
    // From the last operation to the first, GateEnabled is read after it was set.
    let turned: Vec<u8> = operations.iter().rev().flatten().copied().collect();
    assert_eq!(Bench::fresh().done(&turned), reply("01"));
}

#[test]
fn a_list_may_be_present_and_empty() {
    let mut bench = Bench::fresh();
    assert_eq!(
        bench.done(&set(0x0006, &[])),
        hex("02 72 0005 01 0006 00 00")
    );
    assert_eq!(bench.done(&read(0x0006)), hex("02 71 0006 01 0006 0000 00"));
    assert!(bench.is_sound());
}

#[test]
fn whole_schedules_of_every_size() {
    for count in 1..=64 {
        let mut bench = Bench::fresh();
        let values = schedule(count, 1_000_000, [count as u32, 1_000]);
        let parsed = Reply::parse(&bench.done(&sets(&values)));
        assert!(parsed.update_errors.is_empty(), "{count} entries");
        assert_eq!(parsed.long_updates.len(), usize::from(count > 36));
        let block: Vec<u8> = values[..4]
            .iter()
            .flat_map(|(_, value)| value.clone())
            .collect();
        assert_eq!(bench.memory[1_630..1_630 + block.len()], block);
        assert!(bench.is_sound());
    }
}

#[test]
fn fresh_memory_octet_for_octet() {
    let mut expected = vec![0; 2_100];
    for (entry, name) in NAMES.split_whitespace().enumerate() {
        expected[6 * entry..6 * entry + 2].copy_from_slice(&hex(name));
    }
    expected[6..12].copy_from_slice(&hex("0003 01 00 0001"));
    expected[42..48].copy_from_slice(&hex("000B 01 00 0004"));
    // SupportedListMax comes after rooms of 8, 1, 10, 4, 448, 8 and 4 octets.
    expected[599..603].copy_from_slice(&hex("00000040"));
    assert_eq!(Bench::fresh().memory, expected);
}
