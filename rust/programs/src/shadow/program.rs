//! Runs a program that may do anything: for a while, and up to so many octets.

use std::io::{Read, Write};
use std::os::unix::process::ExitStatusExt;
use std::path::Path;
use std::process::{Child, Command, ExitStatus, Stdio};
use std::sync::mpsc;
use std::time::{Duration, Instant};

/// How long a program may take.
const MOST_SECONDS: u64 = 5;
/// How much it may print.
const MOST_PRINTED: u64 = 4 << 20;
/// What `timeout` of coreutils ends with if it ended the program, by a signal or else.
const ENDED: i32 = 137;
const TIMED_OUT: i32 = 124;

/// Why there is no output.
#[derive(Clone, Copy, Debug, PartialEq, Eq)]
pub enum NotRun {
    Time,
    Length,
    Failed,
}

impl NotRun {
    /// As the log has it.
    pub fn word(self) -> &'static str {
        match self {
            NotRun::Time => "time",
            NotRun::Length => "length",
            NotRun::Failed => "failed",
        }
    }
}

/// Begins a program below `timeout`, which ends it with all that it began.
fn start(program: &Path) -> std::io::Result<Child> {
    Command::new("timeout")
        .args(["--signal=KILL", &MOST_SECONDS.to_string()])
        .arg(program)
        .arg("--json")
        .stdin(Stdio::piped())
        .stdout(Stdio::piped())
        .stderr(Stdio::null())
        .spawn()
}

/// What is printed, read by a thread of its own: whoever holds the pipe open holds up nobody else.
fn printed(child: &mut Child) -> mpsc::Receiver<Vec<u8>> {
    let (sender, receiver) = mpsc::channel();
    if let Some(output) = child.stdout.take() {
        std::thread::spawn(move || {
            let mut octets = Vec::new();
            let read = output.take(MOST_PRINTED + 1).read_to_end(&mut octets);
            let _ = sender.send(if read.is_ok() { octets } else { Vec::new() });
        });
    }
    receiver
}

fn outcome(status: ExitStatus, took: Duration) -> Result<(), NotRun> {
    let is_ended = matches!(status.code(), Some(ENDED | TIMED_OUT)) || status.signal().is_some();
    match () {
        () if status.success() => Ok(()),
        () if is_ended && took >= Duration::from_secs(MOST_SECONDS) => Err(NotRun::Time),
        () => Err(NotRun::Failed),
    }
}

/// What a program prints for an input.
pub fn run(program: &Path, input: &str) -> Result<String, NotRun> {
    let begin = Instant::now();
    let mut child = start(program).map_err(|_| NotRun::Failed)?;
    if let Some(mut stdin) = child.stdin.take() {
        let input = input.to_owned();
        // It ends with the program, if that reads nothing.
        std::thread::spawn(move || drop(stdin.write_all(input.as_bytes())));
    }
    let told = printed(&mut child).recv_timeout(Duration::from_secs(MOST_SECONDS + 1));
    let octets = match told {
        Ok(octets) if octets.len() as u64 > MOST_PRINTED => {
            let _ = child.kill();
            let _ = child.wait();
            return Err(NotRun::Length);
        }
        Ok(octets) => octets,
        Err(_) => Vec::new(),
    };
    let status = child.wait().map_err(|_| NotRun::Failed)?;
    outcome(status, begin.elapsed())?;
    String::from_utf8(octets).map_err(|_| NotRun::Failed)
}
