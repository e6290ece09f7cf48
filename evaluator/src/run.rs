//! Running a program on a file or with arguments, with a limit on its time.

use std::fs::File;
use std::io::{Read, Write};
use std::os::unix::process::ExitStatusExt;
use std::path::{Path, PathBuf};
use std::process::{Child, Command, ExitStatus, Stdio};
use std::sync::mpsc::{channel, Receiver, RecvTimeoutError};
use std::thread;
use std::time::{Duration, Instant};

/// What the program gets, on its standard input but for the last.
pub enum Input {
    /// An opened file.
    Stored(PathBuf),
    /// A pipe that gets the bytes at once.
    Piped(Vec<u8>),
    /// A pipe that gets the bytes in two parts with a pause between them.
    Halved(Vec<u8>),
    /// Arguments, and an empty input.
    Arguments(Vec<String>),
}

/// What a program that ended by itself left behind.
pub struct Ran {
    pub stdout: Vec<u8>,
    pub stderr: Vec<u8>,
    pub status: ExitStatus,
}

/// Why there is no end of a program to be judged.
pub enum Fault {
    NotStarted(String),
    NotRead(String),
    TimedOut,
}

/// Reads all of `source` in a thread of its own and sends it, or why it cannot be read.
fn collect(mut source: impl Read + Send + 'static) -> Receiver<std::io::Result<Vec<u8>>> {
    let (sender, receiver) = channel();
    thread::spawn(move || {
        let mut bytes = Vec::new();
        let read = source.read_to_end(&mut bytes).map(|_| bytes);
        sender.send(read).ok();
    });
    receiver
}

/// What `source` has sent before `left` is over.
fn received(source: Receiver<std::io::Result<Vec<u8>>>, left: Duration) -> Result<Vec<u8>, Fault> {
    match source.recv_timeout(left) {
        Ok(Ok(bytes)) => Ok(bytes),
        Ok(Err(e)) => Err(Fault::NotRead(e.to_string())),
        Err(RecvTimeoutError::Disconnected) => Err(Fault::NotRead(String::from("the reading thread ended"))),
        Err(RecvTimeoutError::Timeout) => Err(Fault::TimedOut),
    }
}

/// Writes `parts` to the standard input of `child` in a thread of its own; a program may end before it has read all.
fn feed(child: &mut Child, parts: Vec<Vec<u8>>) {
    let mut stdin = child.stdin.take().expect("a piped input");
    thread::spawn(move || {
        for (at, part) in parts.iter().enumerate() {
            if at > 0 {
                thread::sleep(Duration::from_millis(50));
            }
            if stdin.write_all(part).and_then(|()| stdin.flush()).is_err() {
                return;
            }
        }
    });
}

/// Starts `program` with `input`.
fn start(program: &Path, input: Input) -> std::io::Result<Child> {
    let stdin = match &input {
        Input::Stored(path) => Stdio::from(File::open(path)?),
        Input::Piped(_) | Input::Halved(_) => Stdio::piped(),
        Input::Arguments(_) => Stdio::null(),
    };
    let mut command = Command::new(program);
    if let Input::Arguments(words) = &input {
        command.args(words);
    }
    let mut child = command.stdin(stdin).stdout(Stdio::piped()).stderr(Stdio::piped()).spawn()?;
    match input {
        Input::Stored(_) | Input::Arguments(_) => (),
        Input::Piped(bytes) => feed(&mut child, vec![bytes]),
        Input::Halved(mut bytes) => {
            let rest = bytes.split_off(bytes.len() / 2);
            feed(&mut child, vec![bytes, rest]);
        }
    }
    Ok(child)
}

/// The end of `child` before `deadline`, with its output.
fn awaited(child: &mut Child, deadline: Instant) -> Result<Ran, Fault> {
    let left = || deadline.saturating_duration_since(Instant::now());
    let stdout = collect(child.stdout.take().expect("a piped output"));
    let stderr = collect(child.stderr.take().expect("a piped standard error"));
    let stdout = received(stdout, left())?;
    let stderr = received(stderr, left())?;
    loop {
        if let Some(status) = child.try_wait().map_err(|e| Fault::NotRead(e.to_string()))? {
            return Ok(Ran { stdout, stderr, status });
        }
        if left().is_zero() {
            return Err(Fault::TimedOut);
        }
        thread::sleep(Duration::from_micros(200));
    }
}

/// Runs `program` with `input` for at most `limit`, after which it is killed.
pub fn run(program: &Path, input: Input, limit: Duration) -> Result<Ran, Fault> {
    let mut child = start(program, input).map_err(|e| Fault::NotStarted(e.to_string()))?;
    let ran = awaited(&mut child, Instant::now() + limit);
    if ran.is_err() {
        child.kill().ok();
        child.wait().ok();
    }
    ran
}

/// How a program with the status `status` ended, none if it ended with status 0.
pub fn bad_end(status: ExitStatus) -> Option<String> {
    match (status.code(), status.signal()) {
        (Some(0), _) => None,
        (Some(code), _) => Some(format!("exit status {code}")),
        (None, signal) => Some(format!("killed by signal {}", signal.unwrap_or(0))),
    }
}
