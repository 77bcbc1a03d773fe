//! The calls beside the message call whose stack `measure` reads: how they are named, and their row.

use tools::measure::{Exported, Plan, USAGE};
use tools::traffic::measured::STREAMS;

use crate::limits::path;
use crate::measure::{file, given_up, on_path, rows, TOOLS};
use crate::process::{run, BRIDGE, MEASURE};
use crate::stack;

#[test]
fn calls_are_named_between_commas() {
    let stack = |calls: &str| {
        let words = ["--stack", calls, "x.a", "a", "b"].map(String::from);
        Plan::parse(&words).map(|plan| plan.stack.unwrap())
    };
    let alone = Exported {
        message: "one".into(),
        others: vec![],
        library: "./x.a".into(),
    };
    assert_eq!(stack("one"), Ok(alone));
    assert_eq!(stack("one,two").unwrap().others, ["two"]);
    assert_eq!(stack("one,two,on").unwrap().others, ["two", "on"]);
    let library = file("named.a", stack::LLVM.as_bytes());
    for calls in [
        "",
        ",",
        ",call",
        "call,",
        "call,,part::deep",
        "call,call",
        "call,part::deep,call",
        "call,part::deep,part::deep",
    ] {
        assert_eq!(stack(calls), Err(USAGE.into()), "{calls:?}");
        let words = ["--stack", calls, &library, *BRIDGE, *BRIDGE, "1"];
        let refused = run(MEASURE, &words, &[]);
        assert_eq!(given_up(&refused), USAGE, "{calls:?}");
    }
}

/// A library with three calls beside `call`: `flat` has nothing but its return address on the stack,
/// `above` 16 octets where it calls `part::deep`, and `wide` as many as are given.
fn with_others(wide: i64) -> String {
    let down = format!("sub ${:#x},%rsp", wide - 8);
    let up = format!("add ${:#x},%rsp", wide - 8);
    let deep = "R_X86_64_PLT32\t.text.part::deep-0x4";
    [
        stack::LLVM.into(),
        stack::function("flat", &["ret"]),
        stack::function("above", &["push %rax", "call 2", deep, "pop %rax", "ret"]),
        stack::function("wide", &[&down, &up, "ret"]),
    ]
    .concat()
}

/// The row of the other calls of such a library, between those of the message call and of the code.
fn row_of_others(wide: i64, calls: &str) -> String {
    let library = file("others.a", with_others(wide).as_bytes());
    let script = format!("{TOOLS}/silent");
    let output = on_path(&path(), &["--stack", calls, &library, &script, *BRIDGE]);
    let rows = rows(&output);
    let [message, others, code] = rows[STREAMS.len()..] else {
        panic!("{rows:?}");
    };
    assert_eq!(message[..2], ["stack of the message call", "112 octets"]);
    assert_eq!(code[0], "code of the five calls");
    others.join("; ")
}

#[test]
fn the_deepest_of_the_other_calls_is_held_to_its_limit() {
    let row = |figure: &str, from: &str| {
        let limit = "256 octets; ; limit 256 for each";
        format!("stack of the other calls, at most; {figure}; {limit}; {from}")
    };
    let all = "call,flat,above,wide";
    let within = row("256 octets", "flat 8, above 56, wide 256; wide 256");
    assert_eq!(row_of_others(256, all), within);
    let over = row("264 octets over", "flat 8, above 56, wide 264; wide 264");
    assert_eq!(row_of_others(264, all), over);
    // What is not named does not count, and names keep their order.
    let part = row("56 octets", "above 56, flat 8; above 16, part::deep 40");
    assert_eq!(row_of_others(264, "call,above,flat"), part);
    // Of two that are equally deep the first that is named counts.
    let above = row("56 octets", "above 56, wide 56; above 16, part::deep 40");
    assert_eq!(row_of_others(56, "call,above,wide"), above);
    let wide = row("56 octets", "wide 56, above 56; wide 56");
    assert_eq!(row_of_others(56, "call,wide,above"), wide);
}

#[test]
fn no_row_tells_of_other_calls_where_one_is_named() {
    let library = file("alone.a", with_others(264).as_bytes());
    let script = format!("{TOOLS}/silent");
    let output = on_path(&path(), &["--stack", "call", &library, &script, *BRIDGE]);
    let rows = rows(&output);
    let [message, code] = rows[STREAMS.len()..] else {
        panic!("{rows:?}");
    };
    assert_eq!(message[..2], ["stack of the message call", "112 octets"]);
    assert_eq!(code[0], "code of the five calls");
    assert_eq!(output.status.code(), Some(0));
}
