//! Running the programs as child processes.

use std::io::{BufRead, BufReader, Write};
use std::process::{Child, ChildStdin, ChildStdout, Command, Output, Stdio};
use std::thread;

fn start(program: &str, arguments: &[&str]) -> Child {
    Command::new(program)
        .args(arguments)
        .stdin(Stdio::piped())
        .stdout(Stdio::piped())
        .stderr(Stdio::piped())
        .spawn()
        .unwrap()
}

/// Runs a program on whole input.
pub fn run(program: &str, arguments: &[&str], input: &[u8]) -> Output {
    let mut child = start(program, arguments);
    let mut stdin = child.stdin.take().unwrap();
    thread::scope(|scope| {
        // A program may end before it has read all.
        scope.spawn(move || stdin.write_all(input).ok());
        child.wait_with_output().unwrap()
    })
}

/// The lines that a program prints for whole input; it has to end well and silently.
pub fn lines(program: &str, input: &[u8]) -> Vec<String> {
    let output = run(program, &[], input);
    assert!(output.status.success());
    assert_eq!(text(&output.stderr), "");
    assert!(output.stdout.is_empty() || output.stdout.ends_with(b"\n"));
    text(&output.stdout).lines().map(String::from).collect()
}

/// Octets as text.
pub fn text(octets: &[u8]) -> &str {
    std::str::from_utf8(octets).unwrap()
}

/// Asserts that a program refuses its arguments: status 2 and one line on standard error.
pub fn assert_refused(program: &str, arguments: &[&str]) {
    let output = run(program, arguments, &[]);
    assert_eq!(output.status.code(), Some(2), "{arguments:?}");
    assert!(output.stdout.is_empty(), "{arguments:?}");
    assert_eq!(text(&output.stderr).lines().count(), 1, "{arguments:?}");
}

/// Asserts that a program whose reader goes away ends without a message.
pub fn assert_quiet_without_reader(program: &str, arguments: &[&str], input: &[u8]) {
    let mut child = start(program, arguments);
    drop(child.stdout.take());
    let mut stdin = child.stdin.take().unwrap();
    stdin.write_all(input).ok();
    drop(stdin);
    let output = child.wait_with_output().unwrap();
    assert_eq!(text(&output.stderr), "");
    assert_eq!(output.status.code(), Some(1));
}

/// A program at the other end of two pipes.
pub struct Peer {
    child: Child,
    stdin: ChildStdin,
    stdout: BufReader<ChildStdout>,
}

impl Peer {
    /// Starts a program.
    pub fn of(program: &str) -> Peer {
        let mut child = start(program, &[]);
        let stdin = child.stdin.take().unwrap();
        let stdout = BufReader::new(child.stdout.take().unwrap());
        Peer {
            child,
            stdin,
            stdout,
        }
    }

    /// Writes octets.
    pub fn write(&mut self, octets: &[u8]) {
        self.stdin.write_all(octets).unwrap();
    }

    /// Waits for a line.
    pub fn line(&mut self) -> String {
        let mut line = String::new();
        self.stdout.read_line(&mut line).unwrap();
        line
    }

    /// Ends the input; all that is still printed.
    pub fn end(self) -> String {
        drop(self.stdin);
        let rest: Vec<String> = self.stdout.lines().map(Result::unwrap).collect();
        let mut child = self.child;
        assert!(child.wait().unwrap().success());
        rest.join("\n")
    }
}
