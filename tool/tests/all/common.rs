//! The command, run from the repository's folder with the proved program or a stand-in for it.
use std::fs;
use std::io::Write;
use std::path::{Path, PathBuf};
use std::process::{Command, Output, Stdio};
use std::sync::atomic::{AtomicUsize, Ordering};

pub fn repository() -> PathBuf {
    Path::new(env!("CARGO_MANIFEST_DIR")).join("..").canonicalize().expect("the repository")
}

/// The proved program: without it nothing here says anything, so that is a failure.
fn clerk() -> PathBuf {
    let named = std::env::var_os("NIBGRAVEL_CLERK").map(PathBuf::from);
    let built = repository().join("crates/clerk/out/clerk").exists().then(|| repository().join("tools/clerk"));
    named.or(built).expect("no proved program: run `tools/prove clerk`, or let NIBGRAVEL_CLERK name it")
}

pub struct Ran {
    pub status: Option<i32>,
    pub out: Vec<u8>,
    pub err: String,
}

impl Ran {
    pub fn text(&self) -> String {
        String::from_utf8(self.out.clone()).expect("text")
    }

    /// What it said on standard error, after a run that printed nothing and ended with this status.
    pub fn failed(&self, status: i32) -> &str {
        assert_eq!((self.status, self.text().as_str()), (Some(status), ""), "{}", self.err);
        assert_eq!(self.err.lines().count(), 1, "{}", self.err);
        self.err.trim_end()
    }

    /// What it printed, after a run that ended with this status and had nothing to complain about.
    pub fn said(&self, status: i32) -> String {
        assert_eq!((self.status, self.err.as_str()), (Some(status), ""));
        self.text()
    }
}

impl From<Output> for Ran {
    fn from(output: Output) -> Ran {
        let err = String::from_utf8(output.stderr).expect("text");
        assert!(!err.contains("panicked"), "{err}");
        Ran { status: output.status.code(), out: output.stdout, err }
    }
}

/// Not started yet, with the proved program.
pub fn command(words: &[&str]) -> Command {
    let mut command = Command::new(env!("CARGO_BIN_EXE_nibgravel"));
    command.args(words).current_dir(repository()).env("NIBGRAVEL_CLERK", clerk()).stdin(Stdio::null());
    command
}

pub fn run(words: &[&str]) -> Ran {
    command(words).output().expect("the command runs").into()
}

/// With bytes on standard input.
pub fn run_on(words: &[&str], input: &[u8]) -> Ran {
    let mut command = command(words);
    command.stdin(Stdio::piped()).stdout(Stdio::piped()).stderr(Stdio::piped());
    let mut child = command.spawn().expect("the command runs");
    // It may have ended without a look at them.
    let _ = child.stdin.take().expect("its input").write_all(input);
    child.wait_with_output().expect("the command ends").into()
}

/// With a program that says these bytes, whatever it is asked.
pub fn run_with(replies: &[u8], words: &[&str]) -> Ran {
    let room = Room::new();
    let file = room.file("replies", replies);
    let stand_in = Path::new(env!("CARGO_MANIFEST_DIR")).join("tests/stand-in");
    let mut command = command(words);
    command.env("NIBGRAVEL_CLERK", stand_in).env("NIBGRAVEL_REPLIES", file);
    command.output().expect("the command runs").into()
}

/// A folder that is removed at the end.
pub struct Room(PathBuf);

impl Room {
    pub fn new() -> Room {
        static COUNT: AtomicUsize = AtomicUsize::new(0);
        let number = COUNT.fetch_add(1, Ordering::Relaxed);
        let path = std::env::temp_dir().join(format!("nibgravel-tool-{}-{number}", std::process::id()));
        fs::create_dir_all(&path).expect("a folder");
        Room(path)
    }

    pub fn path(&self, name: &str) -> String {
        self.0.join(name).to_str().expect("a name").to_string()
    }

    /// Writes a file: its path.
    pub fn file(&self, name: &str, bytes: &[u8]) -> String {
        fs::write(self.0.join(name), bytes).expect("a file");
        self.path(name)
    }

    /// The names of what is in it.
    pub fn names(&self) -> Vec<String> {
        let name =
            |entry: std::io::Result<fs::DirEntry>| entry.expect("an entry").file_name().to_string_lossy().into_owned();
        let mut names: Vec<String> = fs::read_dir(&self.0).expect("the folder").map(name).collect();
        names.sort();
        names
    }
}

impl Drop for Room {
    fn drop(&mut self) {
        let _ = fs::remove_dir_all(&self.0);
    }
}

pub fn sample(name: &str) -> Vec<u8> {
    fs::read(repository().join("samples").join(name)).expect("a sample")
}
