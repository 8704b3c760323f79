//! Asks one process: a script on its standard input, the answer from its standard output.

use std::fmt;
use std::io::{Read, Write};
use std::path::Path;
use std::process::{Child, ChildStdin, ChildStdout, Command, Stdio};
use std::sync::mpsc;
use std::thread;
use std::time::{Duration, Instant};

/// Longest time that a script may take: a program may run by an emulator, on a busy machine.
const TIME_LIMIT: Duration = Duration::from_secs(30);
/// Bytes of output read beyond the expected ones: enough to see that there are too many.
const BEYOND: usize = 4_096;

pub struct Answer {
    pub lines: Vec<u8>,
    pub ending: Ending,
}

/// How a process ended.
#[derive(Debug, Eq, PartialEq)]
pub enum Ending {
    Well,
    Badly(String),
    Overran,
    NotStarted(String),
}

impl Answer {
    /// The right lines and a good end.
    pub fn is(&self, expected: &[u8]) -> bool {
        self.ending == Ending::Well && self.lines == expected
    }
}

impl fmt::Display for Ending {
    fn fmt(&self, out: &mut fmt::Formatter<'_>) -> fmt::Result {
        match self {
            Ending::Well => write!(out, "ended with status 0"),
            Ending::Badly(status) => write!(out, "ended with {status}"),
            Ending::Overran => write!(out, "did not end in {} s", TIME_LIMIT.as_secs()),
            Ending::NotStarted(fault) => write!(out, "could not be started: {fault}"),
        }
    }
}

/// `expected` bytes of output are awaited; far more are not read.
pub fn ask(program: &Path, args: &[String], script: &[u8], expected: usize) -> Answer {
    let deadline = Instant::now() + TIME_LIMIT;
    let mut child = match start(program, args) {
        Ok(child) => child,
        Err(fault) => {
            let ending = Ending::NotStarted(fault.to_string());
            return Answer { lines: Vec::new(), ending };
        }
    };
    feed(child.stdin.take(), script.to_vec());
    let output = collect(child.stdout.take(), expected + BEYOND);
    let left = deadline.saturating_duration_since(Instant::now());
    let Ok(lines) = output.recv_timeout(left) else {
        stop(&mut child);
        return Answer { lines: Vec::new(), ending: Ending::Overran };
    };
    let ending = wait(&mut child, deadline);
    Answer { lines, ending }
}

fn start(program: &Path, args: &[String]) -> std::io::Result<Child> {
    Command::new(program)
        .args(args)
        .stdin(Stdio::piped())
        .stdout(Stdio::piped())
        .stderr(Stdio::null())
        .spawn()
}

/// Writes in a thread of its own; a program that stops reading early is no fault of the script.
fn feed(stdin: Option<ChildStdin>, script: Vec<u8>) {
    let Some(mut stdin) = stdin else { return };
    thread::spawn(move || {
        let _ = stdin.write_all(&script);
    });
}

/// Reads in a thread of its own, so that a silent program can be timed out.
fn collect(stdout: Option<ChildStdout>, most: usize) -> mpsc::Receiver<Vec<u8>> {
    let (sender, receiver) = mpsc::channel();
    thread::spawn(move || {
        let mut lines = Vec::new();
        if let Some(stdout) = stdout {
            let _ = stdout.take(most as u64).read_to_end(&mut lines);
        }
        let _ = sender.send(lines);
    });
    receiver
}

/// Its output is closed: it should end at once.
fn wait(child: &mut Child, deadline: Instant) -> Ending {
    let mut pause = Duration::from_micros(20);
    loop {
        match child.try_wait() {
            Ok(Some(status)) if status.success() => return Ending::Well,
            Ok(Some(status)) => return Ending::Badly(status.to_string()),
            Ok(None) if Instant::now() < deadline => thread::sleep(pause),
            Ok(None) | Err(_) => {
                stop(child);
                return Ending::Overran;
            }
        }
        pause = (pause * 2).min(Duration::from_millis(5));
    }
}

fn stop(child: &mut Child) {
    let _ = child.kill();
    let _ = child.wait();
}
