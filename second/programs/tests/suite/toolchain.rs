//! What the starters do before a program runs, over a toolchain that stands in: proving, building,
//! waiting.

use std::fs;
use std::os::unix::process::ExitStatusExt;

use crate::place::{line, timeless, until, Place, ANSWERS};

const FIRST: &str = "bridge: proves and builds first what is not yet, some minutes if that is all \
                     3 crates\n";

#[test]
fn the_first_run_tells_its_progress() {
    let place = Place::fresh();
    let told = "bridge: 1 of 3 low proved (N s)\nbridge: 2 of 3 mid proved (N s)\n\
                bridge: 3 of 3 bridge proved (N s)\n";
    let sample = "./bridge samples/three-frames.hex";
    let run = |script: &str| {
        let (status, out, err) = place.shell(script);
        assert_eq!((status, out.as_str()), (0, ANSWERS), "{script}");
        timeless(&err)
    };
    assert_eq!(run(sample), format!("{FIRST}{told}"));
    assert_eq!(run(sample), "");
    let log = fs::read_to_string(place.root().join("target/bridge.log")).unwrap();
    assert!(log.contains("fn mid::first: proved\n") && log.contains("\nrt: running out/bridge; "));
    // What is below is proved, and what is not needed is not looked at, nor what 'rt' makes.
    let (status, out, err) = place.shell("./rig </dev/null");
    let rig = FIRST.replace("bridge", "rig") + "rig: 3 of 3 rig proved (N s)\n";
    assert_eq!((status, out.as_str(), timeless(&err)), (0, "", rig));
    let other = "touch crates/apart/src/lib.rt crates/low crates/low/out crates/bridge/stdin";
    assert_eq!(run(&format!("{other}; {sample}")), "");
    for change in [
        "touch crates/low/src/lib.rt",
        "rm crates/mid/src/lib.rt",
        "mkdir crates/low/proofs",
        "rm -r crates/low/proofs",
        "touch crates.txt",
    ] {
        assert_eq!(run(&format!("{change}; {sample}")), FIRST, "{change}");
        assert_eq!(run(sample), "", "{change}");
    }
}

#[test]
fn a_failed_proof_is_told_with_the_log() {
    let place = Place::fresh();
    fs::write(place.kit("fault"), "").unwrap();
    let told = "bridge: 1 of 3 low proved (N s)\n\
                bridge: 2 of 3 mid NOT PROVED (N s)\n\
                bridge: not run, since 'rt run bridge' ended with status 1. All that it said is in \
                ROOT/target/bridge.log, at last:\n";
    let sample = "./bridge samples/three-frames.hex";
    let (status, out, err) = place.shell(sample);
    assert_eq!((status, out.as_str()), (2, ""));
    assert!(
        timeless(&err).starts_with(&format!("{FIRST}{told}")),
        "{err}"
    );
    let last = "\nrt: the library mid did not build, so nothing above it was checked\n";
    assert!(err.contains("\nfn mid::first: not-proved\n") && err.ends_with(last));
    assert!(
        !err.contains("modules") && !err.contains("logic.json"),
        "{err}"
    );
    // It is tried again, and goes on where it was.
    assert_eq!(place.shell(sample).0, 2);
    fs::remove_file(place.kit("fault")).unwrap();
    let (status, out, err) = place.shell(sample);
    assert_eq!((status, out.as_str()), (0, ANSWERS));
    let last = "bridge: 3 of 3 bridge proved (N s)\n";
    assert!(
        !err.contains("low") && timeless(&err).ends_with(last),
        "{err}"
    );
}

#[test]
fn a_program_that_does_not_print_what_is_stored_is_not_run() {
    let place = Place::fresh();
    let store = |part: &str, octets: &[u8]| {
        fs::write(place.root().join("crates/bridge").join(part), octets).unwrap();
    };
    store("stdin", &[0, 0]);
    let sample = "./bridge samples/three-frames.hex";
    let why = "bridge: not run, since on ROOT/crates/bridge/stdin it does not print what \
               /dev/null has, but what ROOT/target/bridge.printed has\n";
    let run = || {
        let (status, out, err) = place.shell(sample);
        (
            status,
            out,
            err.lines().last().map(|line| format!("{line}\n")),
        )
    };
    assert_eq!(run(), (2, String::new(), Some(why.into())));
    store("stdout", b"3 -\n");
    let why = why.replace("/dev/null", "ROOT/crates/bridge/stdout");
    assert_eq!(run(), (2, String::new(), Some(why)));
    let printed = fs::read_to_string(place.root().join("target/bridge.printed"));
    assert_eq!(printed.unwrap(), "2 -\n");
    store("stdout", b"2 -\n");
    let (status, out, _) = run();
    assert_eq!((status, out.as_str()), (0, ANSWERS));
    place.assert_shell(sample, 0, ANSWERS, "");
}

#[test]
fn of_two_first_runs_one_waits_for_the_other() {
    let place = Place::fresh();
    fs::write(place.kit("hold"), "").unwrap();
    let sample = "./bridge samples/three-frames.hex";
    let first = place.start(sample);
    until(|| place.kit("asked").exists());
    let mut waiting = [place.start(sample), place.start("./rig")];
    let mut told = waiting
        .each_mut()
        .map(|child| line(child.stderr.as_mut().unwrap()));
    told.sort();
    let wait = "another run proves and builds; this one waits for it\n";
    assert_eq!(told, [format!("bridge: {wait}"), format!("rig: {wait}")]);
    fs::remove_file(place.kit("hold")).unwrap();
    let [second, rig] = waiting.map(|child| place.ended(child.wait_with_output().unwrap()));
    assert_eq!(place.ended(first.wait_with_output().unwrap()).1, ANSWERS);
    assert_eq!(second, (0, ANSWERS.to_string(), String::new()));
    assert_eq!((rig.0, rig.1.as_str()), (0, ""));
    // The second one had nothing left to build.
    assert_eq!(
        fs::read_to_string(place.kit("asked")).unwrap(),
        "bridge\nrig\n"
    );

    let place = Place::fresh();
    let (status, out, err) = place.shell(&format!("rm \"$KIT/../tools/flock\"; {sample}"));
    assert_eq!((status, out.as_str()), (0, ANSWERS));
    assert!(
        err.starts_with("bridge: 'flock' is not on the PATH: "),
        "{err}"
    );
}

#[test]
fn a_signal_ends_a_build_with_all_of_its_parts() {
    let place = Place::fresh();
    fs::write(place.kit("hold"), "").unwrap();
    let mut child = place.start("exec ./bridge");
    until(|| place.kit("asked").exists());
    place.shell(&format!("kill {}", child.id()));
    assert_eq!(child.wait().unwrap().signal(), Some(15));
    // A part that went on would still have the lock.
    place.assert_shell("flock -w 20 target/lock sh -c :", 0, "", "");
    assert!(place.kit("hold").exists());
}

#[test]
fn a_run_of_what_is_built_writes_nothing() {
    let sample = "./bridge samples/three-frames.hex";
    let place = Place::built();
    place.shell("touch ../before; sleep 0.05; chmod -R a-w .");
    place.assert_shell(sample, 0, ANSWERS, "");
    place.assert_shell("find . -newer ../before; chmod -R u+w .", 0, "", "");
    // What cannot be built is told; for root a folder can always be written, so it is none.
    let place = Place::fresh();
    fs::write(place.root().join("target"), "").unwrap();
    let why = "bridge: 'bridge' is not yet built from the files as they are, and ROOT/target cannot be written\n";
    place.assert_shell(sample, 2, "", why);
    assert!(!place.kit("asked").exists());
}

#[test]
fn a_toolchain_is_wanted_only_to_build() {
    let sample = "./bridge samples/three-frames.hex";
    let place = Place::built();
    place.assert_shell(&format!("rm \"$KIT/bin/rt\"; {sample}"), 0, ANSWERS, "");
    let why = "bridge: 'bridge' is not yet built from the files as they are, and 'rt' is not on the PATH: \
               Rattle's toolchain proves and builds\n";
    place.assert_shell(
        &format!("touch crates/low/src/lib.rt; {sample}"),
        2,
        "",
        why,
    );
}

#[test]
fn another_processor_than_x86_64_wants_an_emulator() {
    let place = Place::fresh();
    let sample = "./bridge samples/three-frames.hex";
    place.shell(
        "echo riscv64 >\"$KIT/machine\"; cp -P \"$KIT/bin/rt\" \"$KIT/bin/qemu-x86_64\"; ./bridge </dev/null",
    );
    // Where the toolchain stands was kept when the program was built.
    let script = format!("mv \"$KIT/bin/rt\" \"$KIT/rt\"; {sample}");
    place.assert_shell(&script, 0, ANSWERS, "");
    let foreign = "bridge: the program is for x86-64 and this machine is riscv64: ";
    for (change, why) in [
        (
            "mv \"$KIT/toolchain\" \"$KIT/gone\"",
            "the toolchain's loader is no longer at '",
        ),
        (
            "mv \"$KIT/rt\" \"$KIT/bin/rt\"",
            "the toolchain has no loader, '",
        ),
        (
            "rm \"$KIT/bin/qemu-x86_64\"",
            "the emulator 'qemu-x86_64' is not on the PATH\n",
        ),
    ] {
        let (status, out, err) = place.shell(&format!("{change}; {sample}"));
        assert_eq!((status, out.as_str()), (2, ""));
        assert!(err.starts_with(&format!("{foreign}{why}")), "{err}");
    }
    let script = format!("echo x86_64 >\"$KIT/machine\"; {sample}");
    place.assert_shell(&script, 0, ANSWERS, "");
}

#[test]
fn another_toolchain_is_told() {
    let place = Place::built();
    let pinned = fs::read_to_string(place.kit("version")).unwrap();
    fs::write(place.kit("version"), "another kit").unwrap();
    let told = |name| {
        format!("{name}: 'rt version' prints 'another kit', and this repository is proved with '{pinned}'\n")
    };
    let sample = "./bridge samples/three-frames.hex";
    place.assert_shell(sample, 0, ANSWERS, &told("bridge"));
    place.assert_shell("./rig </dev/null", 0, "", &told("rig"));
    let (status, _, err) = place.shell("./check");
    assert_eq!((status, err), (0, told("check")));
    // Measuring wants more than stands in here, but it tells that first.
    let (_, out, err) = place.shell("./measure");
    assert!(out.is_empty() && err.starts_with(&told("measure")), "{err}");
    place.assert_shell(
        &format!("rm toolchain.txt \"$KIT/bin/rt\"; {sample}"),
        0,
        ANSWERS,
        "",
    );
}
