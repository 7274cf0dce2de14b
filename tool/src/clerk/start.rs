//! The process of the proved program: found, started, sent requests by a thread of its own, and ended.
use super::reply::HELLO;
use super::request::Request;
use crate::input::shown;
use crate::trouble::{reason, Problem, Trouble};
use std::ffi::OsString;
use std::io::{self, BufReader, Read, Write};
use std::path::PathBuf;
use std::process::{Child, ChildStdin, ChildStdout, Command, Stdio};
use std::sync::mpsc::{channel, Receiver, Sender};
use std::thread;
use std::time::Duration;

/// Names the proved program; else it stands beside this one.
const VARIABLE: &str = "NIBGRAVEL_CLERK";

/// Some other program may wait for ever; the right one answers at once, also where a machine of another kind is
/// imitated.
const PATIENCE: Duration = Duration::from_secs(20);

const ENDED: &str = "ended before it had answered";

pub struct Running {
    child: Child,
    /// To the thread that writes. It has no bound: whoever asks says how far ahead.
    requests: Sender<Vec<u8>>,
    replies: Option<BufReader<ChildStdout>>,
}

impl Running {
    pub fn start() -> Result<Running, Trouble> {
        let path = path()?;
        let failed = |error| because(error, &format!("{} can't be started", shown(&path)));
        let started = Command::new(&path).stdin(Stdio::piped()).stdout(Stdio::piped()).spawn();
        let mut child = started.map_err(failed)?;
        let (input, output) = (child.stdin.take(), child.stdout.take());
        let (Some(input), Some(output)) = (input, output) else {
            return Err(failed(io::ErrorKind::BrokenPipe.into()));
        };
        let (requests, sent) = channel();
        begin(move || write_all(input, &sent)).map_err(failed)?;
        let mut running = Running { child, requests, replies: None };
        running.send(Request::Hello.bytes());
        running.replies = Some(hello(output, PATIENCE)?);
        Ok(running)
    }

    pub fn send(&self, request: Vec<u8>) {
        // Where the writer has ended, so has the program, and the reply that doesn't come says so.
        let _ = self.requests.send(request);
    }

    pub fn reply<const N: usize>(&mut self) -> Result<[u8; N], Trouble> {
        let mut bytes = [0; N];
        match self.replies.as_mut().map(|replies| replies.read_exact(&mut bytes)) {
            Some(Ok(())) => Ok(bytes),
            Some(Err(error)) => Err(Trouble::clerk(Problem::over(error, ENDED))),
            None => Err(Trouble::clerk(ENDED)),
        }
    }
}

/// It has nothing left to say that anyone waits for.
impl Drop for Running {
    fn drop(&mut self) {
        let _ = self.child.kill();
        let _ = self.child.wait();
    }
}

fn path() -> Result<PathBuf, Trouble> {
    let given: Option<OsString> = std::env::var_os(VARIABLE).filter(|path| !path.is_empty());
    let found = match given {
        // Never one of that name from the search path.
        Some(path) => std::path::absolute(path),
        None => std::env::current_exe().and_then(|own| own.canonicalize()).map(|own| own.with_file_name("clerk")),
    };
    found.map_err(|error| because(error, "can't be looked for"))
}

fn because(error: io::Error, what: &str) -> Trouble {
    let what = format!("{what}: {}", reason(&error));
    Trouble::clerk(Problem::over(error, what))
}

/// Writes what is sent until there is no more of it, or no one to read it; then the program's input ends.
fn write_all(mut input: ChildStdin, sent: &Receiver<Vec<u8>>) {
    while let Ok(mut bytes) = sent.recv() {
        // All that is there already goes at once.
        while let Ok(more) = sent.try_recv() {
            bytes.extend(more);
        }
        if input.write_all(&bytes).is_err() {
            return;
        }
    }
}

fn hello(output: ChildStdout, patience: Duration) -> Result<BufReader<ChildStdout>, Trouble> {
    let (sender, heard) = channel();
    let listening = begin(move || {
        let (mut output, mut bytes) = (BufReader::with_capacity(1 << 16, output), [0; HELLO.len()]);
        let read = output.read_exact(&mut bytes);
        let _ = sender.send(read.map(|()| (output, bytes)));
    });
    match listening.map(|()| heard.recv_timeout(patience)) {
        Ok(Ok(Ok((output, bytes)))) if bytes == *HELLO => Ok(output),
        Ok(Ok(Ok(_))) => Err(Trouble::clerk("is another one: it does not say \"nibgravel pipe 1\"")),
        Ok(Ok(Err(error))) => Err(Trouble::clerk(Problem::over(error, ENDED))),
        Ok(Err(_)) => Err(Trouble::clerk("does not answer")),
        Err(error) => Err(because(error, "can't be listened to")),
    }
}

/// A thread, where the system has one left.
fn begin(work: impl FnOnce() + Send + 'static) -> io::Result<()> {
    thread::Builder::new().spawn(work).map(drop)
}

#[cfg(test)]
mod tests {
    use super::*;

    #[test]
    fn a_program_that_says_nothing_is_not_waited_for() {
        let mut child = Command::new("sleep").arg("5").stdout(Stdio::piped()).spawn().expect("sleep");
        let heard = hello(child.stdout.take().expect("its output"), Duration::from_millis(50));
        child.kill().and_then(|()| child.wait()).expect("it was there");
        assert!(matches!(heard, Err(Trouble::Clerk(problem)) if problem.to_string() == "does not answer"));
    }
}
