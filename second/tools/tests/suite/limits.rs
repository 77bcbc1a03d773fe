//! What is over its limit: it is marked in the table and the status is 1, also that of `./measure`.

use std::os::unix::fs::symlink;
use std::path::PathBuf;
use std::process::{Command, Output};
use std::{env, fs, process};

use kit::files::ROOT;
use tools::measure::table::{Figure, Row, Table};

use crate::measure::{file, on_path, rows, TOOLS};
use crate::process::{text, BRIDGE, DESK, MEASURE, RIG};
use crate::{gate, stack};

/// A call that takes as many octets of stack as it may, and one that takes 8 more.
fn calls() -> [String; 2] {
    [2_612 - 40 - 72 + 40, 2_612 - 40 - 72 + 48].map(|octets: i32| {
        let deeper = format!("${octets}, %rsp");
        assert!(stack::LLVM.contains("$40, %rsp"));
        stack::LLVM.replace("$40, %rsp", &deeper)
    })
}

/// The PATH with what stands in for other programs.
pub fn path() -> String {
    format!("{TOOLS}:{}", env::var("PATH").unwrap())
}

#[test]
fn a_table_is_aligned() {
    let row = |what: &str, figure, each, from: &str| Row {
        what: what.into(),
        figure,
        each,
        from: from.into(),
    };
    let ratio = Figure::Ratio(Some(1.0 / 3.0), 12.5);
    let table = Table(vec![
        row("a", ratio, Some([0.1, 0.3]), "b"),
        row("äöü", Figure::None, None, "some words"),
        row("c", Figure::Octets(2_613, Some(2_612)), None, ""),
        row("d", Figure::Octets(7, None), None, ""),
        row("e", Figure::Ratio(None, 1.0), None, ""),
    ]);
    let expected = "\
| what |         measured |       limit | microseconds a message | from       |
| ---- | ---------------: | ----------: | ---------------------: | ---------- |
| a    |             0.33 |       12.50 |     0.10 (second 0.30) | b          |
| äöü  |                  |             |                        | some words |
| c    | 2613 octets over | 2612 octets |                        |            |
| d    |         7 octets |             |                        |            |
| e    |                - |        1.00 |                        |            |
";
    assert_eq!(table.to_string(), expected);
    assert_eq!(table.over(), 1);
}

#[test]
fn a_figure_is_held_to_its_limit_as_it_is_shown() {
    let ratio = |ratio| Figure::Ratio(Some(ratio), 1.2);
    for (figure, over) in [
        (ratio(1.0), false),
        (ratio(1.2), false),
        (ratio(1.204), false),
        (ratio(1.206), true),
        (ratio(70.0), true),
        (Figure::Ratio(None, 1.2), false),
        (Figure::Octets(2_612, Some(2_612)), false),
        (Figure::Octets(2_613, Some(2_612)), true),
        (Figure::Octets(2_613, None), false),
        (Figure::None, false),
    ] {
        assert_eq!(figure.is_over(), over, "{figure:?}");
    }
}

#[test]
fn what_is_over_its_limit_is_marked_and_gives_status_1() {
    // Times of what is not compiled are not measured, so that none of them is over its limit.
    let script = format!("{TOOLS}/silent");
    let [most, over] = calls();
    let [most, over] = [("most.a", most), ("over.a", over)].map(|(n, l)| file(n, l.as_bytes()));
    let late = gate::LOG.replace("1m30.500s", "10m3.100s");
    let [soon, late] = [("soon.log", gate::LOG), ("late.log", &late)];
    let [soon, late] = [soon, late].map(|(name, log)| file(name, log.as_bytes()));
    for (library, log, figures, status) in [
        (&most, &soon, ["2612 octets", "0.15"], 0),
        (&over, &soon, ["2620 octets over", "0.15"], 1),
        (&most, &late, ["2612 octets", "1.01 over"], 1),
        (&over, &late, ["2620 octets over", "1.01 over"], 1),
    ] {
        let words = ["--stack", "call", library, "--gate", log, &script, *BRIDGE];
        let output = on_path(&path(), &words);
        let rows = rows(&output);
        let [stack, _, gate] = rows[rows.len() - 3..] else {
            panic!("{rows:?}");
        };
        assert_eq!([stack[1], gate[1]], figures);
        assert_eq!([stack[2], gate[2]], ["2612 octets", "1.00"]);
        assert_eq!(output.status.code(), Some(status));
    }
}

/// A folder in which `./measure` finds all that it needs, but for what stands in. It lies outside the
/// repository, in which only one `crates.txt` may stand; its programs are built.
struct Folder(PathBuf);

impl Drop for Folder {
    fn drop(&mut self) {
        fs::remove_dir_all(&self.0).ok();
    }
}

impl Folder {
    fn new(name: &str) -> Folder {
        let base = format!("Bightmoor's measure {} {name}", process::id());
        let folder = env::temp_dir().join(base);
        let release = folder.join("second/target/release");
        for part in ["crates/endpoint/src", "second/target/release", "scripts"] {
            fs::create_dir_all(folder.join(part)).unwrap();
        }
        fs::write(folder.join("crates.txt"), "endpoint:\n").unwrap();
        for file in ["measure", "scripts/toolchain", "toolchain.txt"] {
            fs::copy(format!("{ROOT}/{file}"), folder.join(file)).unwrap();
        }
        for name in ["bridge", "desk", "rig"] {
            symlink(format!("{TOOLS}/cargo"), folder.join(name)).unwrap();
        }
        fs::copy(MEASURE, release.join("measure")).unwrap();
        fs::copy(*BRIDGE, release.join("bridge")).unwrap();
        fs::copy(*DESK, release.join("desk")).unwrap();
        fs::copy(*RIG, release.join("rig")).unwrap();
        Folder(folder)
    }
}

/// What `./measure` says before it measures.
const SAID: &str = "\
measure: proves and builds first what is not yet, which takes some minutes if nothing is
measure: measures, which takes some minutes
";

/// Runs `./measure` with a bridge, a desk and a rig that are not compiled; what it says before is taken off.
/// What stands in for `rt` makes a library of the listing, and what stands in for `cargo` builds nothing.
fn script(name: &str, listing: &str) -> Output {
    let folder = Folder::new(name);
    let mut command = Command::new(folder.0.join("measure"));
    command.args(["silent"; 3].map(|name| format!("{TOOLS}/{name}")));
    command.env("PATH", path());
    let mut output = command.env("LISTING", listing).output().unwrap();
    let said: Vec<u8> = output.stderr.drain(..SAID.len()).collect();
    assert_eq!(text(&said), SAID);
    output
}

/// A listing whose `call` is the message call of `./measure`, with the other calls that it names.
fn probed(listing: String) -> String {
    let message = listing.replace("call>", "probe_message>");
    let others = ["local_value", "build", "expiry", "make_fresh"].map(|call| {
        let name = format!("probe_{call}");
        stack::function(&name, &["push %rax", "pop %rax", "ret"])
    });
    message + &others.concat()
}

#[test]
fn the_status_comes_through_the_script() {
    let [most, over] = calls().map(probed);
    let figure = |output: &Output| rows(output)[rows(output).len() - 3][1].to_owned();
    let output = script("within", &most);
    assert_eq!(figure(&output), "2612 octets");
    let others = rows(&output)[rows(&output).len() - 2];
    let each = "probe_local_value 16, probe_build 16, probe_expiry 16, probe_make_fresh 16";
    let from = format!("limit 256 for each; {each}; probe_local_value 16");
    assert_eq!(others[1..], ["16 octets", "256 octets", "", &from]);
    let of = |program: &str| {
        let begin = format!("time of {program} to the second's: ");
        let is = |row: &&[&str; 5]| row[0].starts_with(&begin);
        rows(&output).iter().filter(is).count()
    };
    assert_eq!([of("desk"), of("rig")], [3, 2]);
    assert_eq!(output.status.code(), Some(0));
    let output = script("beyond", &over);
    assert_eq!(figure(&output), "2620 octets over");
    assert_eq!(output.status.code(), Some(1));
    // What cannot be read at all is told from that by its status.
    let output = script("unread", "");
    assert_eq!((output.status.code(), text(&output.stdout)), (Some(2), ""));
}
