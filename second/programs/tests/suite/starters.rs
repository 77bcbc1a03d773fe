//! What starts the proved programs: `bridge`, `rig` and `desk` over `scripts/`, once they are built.

use std::fs;
use std::io::{BufRead, BufReader, Write};
use std::os::unix::net::UnixListener;
use std::os::unix::process::ExitStatusExt;
use std::time::{Duration, Instant};

use crate::place::{line, Place, ANSWERS};

#[test]
fn programs_start_from_anywhere() {
    let place = Place::built();
    let root = place.root();
    place.shell(
        "mkdir ../elsewhere && ln -s '../the root/bridge' ../elsewhere/one && ln -s one ../elsewhere/two \
         && ln -s \"$PWD/bridge\" ../elsewhere/three && cp samples/three-frames.hex ../elsewhere/f",
    );
    for script in [
        "./bridge samples/three-frames.hex",
        "sh bridge samples/three-frames.hex",
        "bash ./bridge samples/three-frames.hex",
        "cd ../elsewhere && ./one f",
        "cd ../elsewhere && ./two f",
        "cd ../elsewhere && sh two f",
        "cd ../elsewhere && ./three f",
        "cd / && PATH=$KIT/../elsewhere:$PATH two \"$OLDPWD/samples/three-frames.hex\"",
        "root=$PWD; cd / && sh \"$root/bridge\" \"$root/samples/three-frames.hex\"",
        "cd crates && CDPATH=/ POSIXLY_CORRECT=1 ../bridge ../samples/three-frames.hex",
    ] {
        place.assert_shell(script, 0, ANSWERS, "");
    }
    // The rig: memory is lent, and a record is cut.
    for script in [
        "./rig script",
        "sh rig script",
        "cd / && \"$OLDPWD/rig\" \"$OLDPWD/script\"",
    ] {
        fs::write(root.join("script"), "05 0002 A5A5 06 0000 # shown\n 01 00").unwrap();
        place.assert_shell(script, 0, "lent 2\na5a5\ncut\n", "");
    }
}

#[test]
fn failed_input_and_output_are_told_and_give_1() {
    let place = Place::built();
    let full = "bridge: No space left on device (os error 28)\n";
    let folder = "bridge: Is a directory (os error 21)\n";
    let frames = "printf '\\0\\0' | ./bridge";
    place.assert_shell("./bridge <.", 1, "", folder);
    place.assert_shell(&format!("{frames} >/dev/full"), 1, "", full);
    let closed = "bridge: standard output cannot be written\n";
    place.assert_shell(&format!("{frames} >&-"), 1, "", closed);
    place.assert_shell(
        "./bridge <&-",
        1,
        "",
        "bridge: standard input cannot be read\n",
    );
    place.assert_shell("./bridge <&- >&- 2>&-", 1, "", "");
    place.assert_shell("./bridge 2>&- <.", 1, "", "");
    // What is not wanted may be closed.
    let sample = "./bridge samples/three-frames.hex";
    place.assert_shell(&format!("{sample} <&- 2>&-"), 0, ANSWERS, "");
}

#[test]
fn a_line_on_standard_error_gives_1_and_is_passed_on_at_once() {
    // As the proved program ends: with 0.
    let place = Place::with_program("echo 'bridge: it failed' >&2; cat >/dev/null; printf end >&2");
    let mut child = place.start("./bridge");
    let mut err = child.stderr.take().unwrap();
    assert_eq!(line(&mut err), "bridge: it failed\n");
    assert_eq!(child.try_wait().unwrap(), None);
    drop(child.stdin.take());
    assert_eq!(line(&mut err), "end\n");
    assert_eq!(child.wait().unwrap().code(), Some(1));
}

#[test]
fn a_signal_gives_128_more() {
    let place = Place::with_program("read -r signal && kill -s \"$signal\" $$");
    let told = "bridge: the program was ended by signal";
    place.assert_shell(
        "echo KILL | ./bridge",
        137,
        "",
        &format!("{told} 9, KILL\n"),
    );
    place.assert_shell(
        "echo SEGV | ./bridge",
        139,
        "",
        &format!("{told} 11, SEGV\n"),
    );
    place.assert_shell("echo PIPE | ./bridge", 141, "", "");
}

#[test]
fn a_signal_to_the_starter_ends_the_program_first() {
    let place = Place::with_program("read -r word && echo $$ && exec sleep 1000");
    let mut child = place.start("exec ./bridge");
    child.stdin.as_mut().unwrap().write_all(b"go\n").unwrap();
    let program = line(&mut child.stdout.take().unwrap());
    place.shell(&format!("kill {}", child.id()));
    assert_eq!(child.wait().unwrap().signal(), Some(15));
    assert_ne!(place.shell(&format!("kill -0 {program}")).0, 0);
}

#[test]
fn a_peer_on_a_pipe_gets_each_answer() {
    let place = Place::built();
    let mut child = place.start("./bridge");
    let mut stdout = BufReader::new(child.stdout.take().unwrap());
    let stdin = child.stdin.as_mut().unwrap();
    for value in 0..2 {
        stdin
            .write_all(&[0, 9, 1, 0, 6, 3, 0, 3, 0, 1, value])
            .unwrap();
        let mut answer = String::new();
        stdout.read_line(&mut answer).unwrap();
        assert_eq!(answer, format!("0 0272000601000301{value:02x}00\n"));
    }
    let (status, _, err) = place.ended(child.wait_with_output().unwrap());
    assert_eq!((status, err.as_str()), (0, ""));
}

#[test]
fn a_reader_may_go_away() {
    let place = Place::built();
    fs::write(place.root().join("frames"), vec![0; 2_000_000]).unwrap();
    place.assert_shell("./bridge <frames | head -n 1", 0, "2 -\n", "");
    place.assert_shell(
        "set -o pipefail; ./bridge <frames | head -n 1",
        1,
        "2 -\n",
        "",
    );
}

/// Runs `bridge` on a file of the given text.
fn on_file(place: &Place, octets: &[u8]) -> (i32, String, String) {
    fs::write(place.root().join("f.hex"), octets).unwrap();
    place.shell("./bridge f.hex")
}

#[test]
fn hexadecimal_text_is_taken_strictly() {
    let place = Place::built();
    for (file, out) in [
        ("", ""),
        ("# nothing\n\n \t\r\n", ""),
        ("0000", "2 -\n"),
        ("00\r\n\t00#00\n 0003 01 00 03\n", "2 -\n5 -\n"),
        (
            "00060100 0302#é\n0003 0",
            "f.hex, line 2: '0' has an odd number of digits",
        ),
        (
            "0000\n\n0 0 0000",
            "f.hex, line 3: '0' has an odd number of digits",
        ),
        (
            "0000\n#\n000 000\n0",
            "f.hex, line 3: '000' has an odd number of digits",
        ),
        (
            "0000 0x00",
            "f.hex, line 1: '0x00' has a character that is no hexadecimal digit",
        ),
        (
            "00\n00\u{b}00",
            "f.hex, line 2: '00?00' has a character that is no hexadecimal digit",
        ),
        (
            "00 \u{0}",
            "f.hex, line 1: '?' has a character that is no hexadecimal digit",
        ),
        (
            "-1",
            "f.hex, line 1: '-1' has a character that is no hexadecimal digit",
        ),
    ] {
        let (status, out) = match out.strip_prefix("f.hex, ") {
            Some(_) => (2, (String::new(), format!("bridge: {out}\n"))),
            None => (0, (out.to_string(), String::new())),
        };
        assert_eq!(
            on_file(&place, file.as_bytes()),
            (status, out.0, out.1),
            "{file:?}"
        );
    }
    // Not text at all, on a line that is longer than anything that is told.
    let (status, out, err) = on_file(
        &place,
        &[
            b"0000 # ".to_vec(),
            vec![0xFF; 9_000],
            b"\n".to_vec(),
            vec![0xFF; 9_000],
        ]
        .concat(),
    );
    assert_eq!((status, out.as_str()), (2, ""));
    assert!(
        err.starts_with("bridge: f.hex, line 2: ") && err.len() < 250,
        "{err}"
    );
}

#[test]
fn long_hexadecimal_text_takes_no_time() {
    let place = Place::built();
    let began = Instant::now();
    for frame in ["0006 01 0003 02 0003 # read\n", "0006010003020003"] {
        let (status, out, err) = on_file(&place, frame.repeat(8_000).as_bytes());
        assert_eq!((status, err.as_str()), (0, ""));
        assert!(out == "0 0271000701000300010000\n".repeat(8_000));
    }
    // Far from what it takes, and from what a shell's own loop over the digits would.
    assert!(began.elapsed() < Duration::from_secs(10));
}

#[test]
fn a_bad_file_or_argument_is_answered_before_anything_is_built() {
    let place = Place::fresh();
    let usage = "one file of hexadecimal text, or standard input as it is";
    fs::write(place.root().join("odd.hex"), "0000\n000").unwrap();
    for (arguments, why) in [
        (
            "odd.hex",
            "odd.hex, line 2: '000' has an odd number of digits",
        ),
        ("'no file'", "there is no file 'no file'"),
        ("''", "there is no file ''"),
        ("odd.hex/x", "there is no file 'odd.hex/x'"),
        (
            "samples",
            "'samples' is a folder; a file of hexadecimal text is wanted",
        ),
        (
            "odd.hex odd.hex",
            &format!("takes {usage}; 2 arguments are given"),
        ),
        (
            "--help",
            &format!(
                "takes no option '--help'; usage: ./bridge [FILE], a {}",
                &usage[4..]
            ),
        ),
        (
            "-",
            &format!(
                "takes no option '-'; usage: ./bridge [FILE], a {}",
                &usage[4..]
            ),
        ),
    ] {
        place.assert_shell(
            &format!("./bridge {arguments}"),
            2,
            "",
            &format!("bridge: {why}\n"),
        );
    }
    fs::write(place.root().join("closed.hex"), "").unwrap();
    place.shell("chmod 0 closed.hex");
    // Whoever is root can read it all the same.
    if fs::read(place.root().join("closed.hex")).is_err() {
        let why = "bridge: the file 'closed.hex' cannot be read\n";
        place.assert_shell("./bridge closed.hex", 2, "", why);
    }
    assert!(!place.kit("asked").exists() && !place.root().join("target").exists());
}

/// What is captured, not all of it a message or text, and what `desk` prints for it.
const CAPTURED: (&[u8], &str) = (
    b"# captured\n0 0271000701000300010000\n5 -\n02 7\n02 \x00\xFF\n\n03 0002 00 00",
    "complete\n  value 0003 GateEnabled 00\n5 -\nnot a message\nnot a message\nnotify\n",
);

#[test]
fn the_desk_takes_a_file_as_it_is() {
    let place = Place::built();
    let (captured, printed) = CAPTURED;
    fs::write(place.root().join("a file"), captured).unwrap();
    place.shell("mkdir ../elsewhere && ln -s '../the root/desk' ../elsewhere/one");
    for script in [
        "./desk 'a file'",
        "sh desk 'a file'",
        "./desk <'a file'",
        "cat 'a file' | ./desk",
        "cat 'a file' | ./desk /dev/stdin",
        "./desk <(cat 'a file')",
        "cd ../elsewhere && ./one '../the root/a file'",
        "cd / && sh \"$OLDPWD/desk\" \"$OLDPWD/a file\"",
        "cd crates && CDPATH=/ POSIXLY_CORRECT=1 ../desk '../a file'",
        "./desk 'a file' <&- 2>&-",
    ] {
        place.assert_shell(script, 0, printed, "");
    }
    // What the bridge prints can be handed to it.
    let answers = "5 -\ncomplete\n  value 0003 GateEnabled 00\n2 -\n";
    let piped = "./bridge samples/three-frames.hex | ./desk";
    place.assert_shell(piped, 0, answers, "");
    let told = "desk: Is a directory (os error 21)\n";
    place.assert_shell("./desk <.", 1, "", told);
    place.assert_shell("./desk <&-", 1, "", "desk: standard input cannot be read\n");
}

#[test]
fn a_bad_file_for_the_desk_is_answered_before_anything_is_built() {
    let place = Place::fresh();
    let taken = "a file of text or standard input, each as it is";
    for (arguments, why) in [
        ("'no file'", "there is no file 'no file'".to_string()),
        ("''", "there is no file ''".to_string()),
        ("check/x", "there is no file 'check/x'".to_string()),
        (
            "samples",
            "'samples' is a folder; a file of text is wanted".to_string(),
        ),
        (
            "a b",
            format!("takes one{}; 2 arguments are given", &taken[1..]),
        ),
        (
            "--help",
            format!("takes no option '--help'; usage: ./desk [FILE], {taken}"),
        ),
        (
            "-",
            format!("takes no option '-'; usage: ./desk [FILE], {taken}"),
        ),
    ] {
        for mode in ["", "POSIXLY_CORRECT=1 "] {
            let script = format!("{mode}./desk {arguments}");
            place.assert_shell(&script, 2, "", &format!("desk: {why}\n"));
        }
    }
    // Files that even root cannot open: sockets.
    let socket = UnixListener::bind(place.root().join("closed socket")).unwrap();
    for (mode, name) in [("", "desk"), ("POSIXLY_CORRECT=1 ", "desk"), ("", "bridge")] {
        let why = format!("{name}: the file 'closed socket' cannot be read\n");
        place.assert_shell(&format!("{mode}./{name} 'closed socket'"), 2, "", &why);
    }
    drop(socket);
    assert!(!place.kit("asked").exists() && !place.root().join("target").exists());
}

#[test]
fn a_peer_of_the_desk_gets_each_answer() {
    let place = Place::built();
    let mut child = place.start("./desk");
    let mut stdout = child.stdout.take().unwrap();
    let stdin = child.stdin.as_mut().unwrap();
    for (written, answer) in [
        ("02\n", "complete\n"),
        ("0 04\n7", "13 -\n"),
        (" -\n", "7 -\n"),
    ] {
        stdin.write_all(written.as_bytes()).unwrap();
        assert_eq!(line(&mut stdout), answer);
    }
    let (status, _, err) = place.ended(child.wait_with_output().unwrap());
    assert_eq!((status, err.as_str()), (0, ""));
}
