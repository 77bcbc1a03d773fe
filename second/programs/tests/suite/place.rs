//! A place with the starters and a toolchain that stands in for Rattle's: what it builds are the
//! programs here.

use std::fs;
use std::io::Read;
use std::os::unix::fs::symlink;
use std::os::unix::process::ExitStatusExt;
use std::path::{Path, PathBuf};
use std::process::{Child, Command, Output, Stdio};
use std::sync::atomic::{AtomicUsize, Ordering};
use std::thread::sleep;
use std::time::{Duration, Instant};
use std::{env, process};

use kit::files::ROOT;

use crate::process::{text, BRIDGE, DESK, RIG};

const STAND_IN: &str = concat!(env!("CARGO_MANIFEST_DIR"), "/tests/tools/rt");
const COMPARE: &str = concat!(env!("CARGO_MANIFEST_DIR"), "/tests/tools/compare");
/// What the starters call. Nothing else is on the PATH, and so no toolchain but the one here.
const TOOLS: &str =
    "bash sh cat chmod cmp cp cut dirname env find flock grep head ln mkdir mktemp \
                     mv nice printf ps readlink realpath rm sed setsid sleep sort tail touch tr";
const CRATES: &str = "# NAME: crates below it\nlow: bytes\nmid: low\nbridge: mid low io\n\
                      rig: mid io\ndesk: mid io\napart: low\n";
/// What the sample of three frames is answered with.
pub const ANSWERS: &str = "5 -\n0 0271000701000300010000\n2 -\n";
/// A temporary folder with blanks in its path: `the root`, the `kit` of the toolchain, `tools`.
pub struct Place(PathBuf);

impl Drop for Place {
    fn drop(&mut self) {
        fs::remove_dir_all(&self.0).ok();
    }
}

impl Place {
    /// A root with the given files and folders of the repository.
    pub fn with(parts: &[PathBuf]) -> Place {
        static COUNT: AtomicUsize = AtomicUsize::new(0);
        let count = COUNT.fetch_add(1, Ordering::Relaxed);
        let base = format!("Bightmoor's starters {} {count}", process::id());
        let place = Place(env::temp_dir().join(base));
        let kit = place.0.join("kit");
        for folder in ["bin", "programs", "second", "toolchain/lib"] {
            fs::create_dir_all(kit.join(folder)).unwrap();
        }
        symlink(STAND_IN, kit.join("bin/rt")).unwrap();
        symlink(STAND_IN, kit.join("bin/uname")).unwrap();
        fs::write(kit.join("machine"), env::consts::ARCH).unwrap();
        symlink(STAND_IN, kit.join("toolchain/lib/ld-linux-x86-64.so.2")).unwrap();
        for folder in ["programs", "second"] {
            symlink(BRIDGE, kit.join(folder).join("bridge")).unwrap();
            symlink(RIG, kit.join(folder).join("rig")).unwrap();
            symlink(DESK, kit.join(folder).join("desk")).unwrap();
        }
        symlink(COMPARE, kit.join("second/compare")).unwrap();
        // Built with the tests of the whole workspace.
        let compare = Path::new(BRIDGE).with_file_name("compare");
        symlink(compare, kit.join("compare")).unwrap();
        let pinned = fs::read_to_string(format!("{ROOT}/toolchain.txt")).unwrap();
        fs::write(kit.join("version"), pinned.lines().last().unwrap()).unwrap();
        place.link_tools();
        place.copy(parts, "");
        place
    }

    /// Copies files and folders into a folder of the root.
    pub fn copy(&self, parts: &[PathBuf], folder: &str) {
        let folder = self.root().join(folder);
        fs::create_dir_all(&folder).unwrap();
        // By a process of its own: a file that this one writes could not be run while another test
        // starts a child, which has it open for a moment.
        let mut copy = Command::new("cp");
        let copied = copy.arg("-R").args(parts).arg(folder).status();
        assert!(copied.unwrap().success());
    }

    fn link_tools(&self) {
        let tools = self.0.join("tools");
        fs::create_dir_all(&tools).unwrap();
        let path = env::var_os("PATH").unwrap();
        for tool in TOOLS.split_whitespace() {
            let mut found = env::split_paths(&path).map(|folder| folder.join(tool));
            let found = found
                .find(|file| file.is_file())
                .unwrap_or_else(|| panic!("no {tool}"));
            symlink(found, tools.join(tool)).unwrap();
        }
        symlink(STAND_IN, tools.join("cargo")).unwrap();
    }

    /// The starters and a few crates, of which nothing is built yet.
    pub fn fresh() -> Place {
        let parts = "bridge rig desk check measure scripts samples toolchain.txt".split(' ');
        let place = Place::with(&parts.map(|p| Path::new(ROOT).join(p)).collect::<Vec<_>>());
        fs::write(place.root().join("crates.txt"), CRATES).unwrap();
        for file in [
            "low/src/lib",
            "mid/src/lib",
            "bridge/src/main",
            "rig/src/main",
            "desk/src/main",
            "apart/src/lib",
        ] {
            let file = place.root().join("crates").join(file).with_extension("rt");
            fs::create_dir_all(file.parent().unwrap()).unwrap();
            fs::write(file, "// a crate\n").unwrap();
        }
        place
    }

    /// The same with all programs built.
    pub fn built() -> Place {
        let place = Place::fresh();
        let (status, ..) =
            place.shell("./bridge </dev/null && ./rig </dev/null && ./desk </dev/null");
        assert_eq!(status, 0);
        place
    }

    /// The same with a program of the given text in the place of a built `bridge`, by `sh`.
    pub fn with_program(script: &str) -> Place {
        let place = Place::built();
        let path = place.kit("programs/script");
        fs::write(path, format!("#!/bin/sh\n{script}\n")).unwrap();
        let (status, ..) = place.shell("cp \"$KIT/programs/script\" target/bin/bridge");
        assert_eq!(status, 0);
        place
    }

    pub fn root(&self) -> PathBuf {
        self.0.join("the root")
    }

    pub fn kit(&self, file: &str) -> PathBuf {
        self.0.join("kit").join(file)
    }

    /// Commands of `bash`, to be run in the root, with the kit's folder as `$KIT`.
    pub fn command(&self, script: &str) -> Command {
        let path = env::join_paths([self.kit("bin"), self.0.join("tools")]).unwrap();
        let mut command = Command::new(self.0.join("tools/bash"));
        command
            .args(["-c", script])
            .current_dir(self.root())
            .env("PATH", path);
        command.env("KIT", self.kit("")).stdin(Stdio::null());
        command
    }

    /// The status, 128 + n for a signal, and both outputs, in which the root is `ROOT`.
    pub fn shell(&self, script: &str) -> (i32, String, String) {
        self.ended(self.command(script).output().unwrap())
    }

    pub fn ended(&self, output: Output) -> (i32, String, String) {
        let root = fs::canonicalize(self.root()).unwrap();
        let shown = |octets| text(octets).replace(root.to_str().unwrap(), "ROOT");
        let signal = || 128 + output.status.signal().unwrap();
        let status = output.status.code().unwrap_or_else(signal);
        (status, shown(&output.stdout), shown(&output.stderr))
    }

    /// Starts commands with pipes to them.
    pub fn start(&self, script: &str) -> Child {
        let mut command = self.command(script);
        let piped = command.stdin(Stdio::piped()).stdout(Stdio::piped());
        piped.stderr(Stdio::piped()).spawn().unwrap()
    }

    pub fn assert_shell(&self, script: &str, status: i32, out: &str, err: &str) {
        let expected = (status, out.to_string(), err.to_string());
        assert_eq!(self.shell(script), expected, "{script}");
    }
}

/// Waits until something is so.
pub fn until(what: impl Fn() -> bool) {
    let began = Instant::now();
    while !what() {
        assert!(began.elapsed() < Duration::from_secs(30));
        sleep(Duration::from_millis(10));
    }
}

/// Lines in which each number of seconds is `N`.
pub fn timeless(lines: &str) -> String {
    let mut timeless = String::new();
    for part in lines.split_inclusive(" s)") {
        let seconds = part.strip_suffix(" s)");
        let before = seconds.map(|part| part.trim_end_matches(|c: char| c.is_ascii_digit()));
        timeless += &before.map_or(part.into(), |before| format!("{before}N s)"));
    }
    timeless
}

/// Reads one line without reading on.
pub fn line(source: &mut impl Read) -> String {
    let mut line = Vec::new();
    let mut octet = [0];
    while !line.ends_with(b"\n") && source.read(&mut octet).unwrap() == 1 {
        line.push(octet[0]);
    }
    text(&line).to_string()
}
