//! What ends a command without an answer, and the exit statuses.
use std::error::Error;
use std::fmt;
use std::io::{self, Write};

/// Assessed or accepted, or done.
pub const FINE: u8 = 0;
/// Not assessed, or refused.
pub const REFUSED: u8 = 1;
/// A command line that is none, or something that couldn't be read, written or told.
pub const TROUBLE: u8 = 2;

#[derive(Debug)]
pub enum Trouble {
    /// A command line that is none.
    Misuse(String),
    /// A file or folder as it is shown, and what is wrong with it.
    File { file: String, problem: Problem },
    /// The proved program is missing, or it did not answer as docs/PIPE.md says.
    Clerk(Problem),
    /// Standard output took no more.
    Output(io::Error),
}

impl Trouble {
    pub fn file(file: impl Into<String>, problem: impl Into<Problem>) -> Trouble {
        Trouble::File { file: file.into(), problem: problem.into() }
    }

    pub fn clerk(problem: impl Into<Problem>) -> Trouble {
        Trouble::Clerk(problem.into())
    }

    /// One line on standard error. Nothing is said of a pipe whose reader has gone: it wants no more.
    pub fn tell(&self) {
        match self {
            Trouble::Output(error) if error.kind() == io::ErrorKind::BrokenPipe => (),
            _ => complain(&self.to_string()),
        }
    }
}

impl fmt::Display for Trouble {
    fn fmt(&self, out: &mut fmt::Formatter) -> fmt::Result {
        match self {
            Trouble::Misuse(what) => out.write_str(what),
            Trouble::File { file, problem } => write!(out, "{file}: {problem}"),
            Trouble::Clerk(problem) => write!(out, "the proved program {problem}"),
            Trouble::Output(error) => write!(out, "standard output: {}", reason(error)),
        }
    }
}

impl Error for Trouble {
    fn source(&self) -> Option<&(dyn Error + 'static)> {
        match self {
            Trouble::Misuse(_) => None,
            Trouble::File { problem, .. } | Trouble::Clerk(problem) => problem.source(),
            Trouble::Output(error) => Some(error),
        }
    }
}

/// What is wrong with a file, a folder or the proved program, in words, and the system's error under it if it has one.
#[derive(Debug)]
pub struct Problem {
    what: String,
    source: Option<io::Error>,
}

impl Problem {
    /// In other words than the error's own.
    pub fn over(error: io::Error, what: impl Into<String>) -> Problem {
        Problem { what: what.into(), source: Some(error) }
    }
}

impl From<io::Error> for Problem {
    fn from(error: io::Error) -> Problem {
        Problem { what: reason(&error), source: Some(error) }
    }
}

impl From<String> for Problem {
    fn from(what: String) -> Problem {
        Problem { what, source: None }
    }
}

impl From<&str> for Problem {
    fn from(what: &str) -> Problem {
        what.to_string().into()
    }
}

impl fmt::Display for Problem {
    fn fmt(&self, out: &mut fmt::Formatter) -> fmt::Result {
        out.write_str(&self.what)
    }
}

impl Error for Problem {
    fn source(&self) -> Option<&(dyn Error + 'static)> {
        self.source.as_ref().map(|error| error as _)
    }
}

/// Where standard error can't be written either, the exit status is all there is.
pub fn complain(what: &str) {
    let _ = writeln!(io::stderr(), "nibgravel: {what}");
}

/// What a failed read or write is called, without the system's number for it.
pub fn reason(error: &io::Error) -> String {
    match error.kind() {
        io::ErrorKind::NotFound => "there is no such file".to_string(),
        io::ErrorKind::PermissionDenied => "there is no permission".to_string(),
        io::ErrorKind::IsADirectory => "it is a folder, not a file".to_string(),
        io::ErrorKind::NotADirectory => "it is not a folder".to_string(),
        io::ErrorKind::AlreadyExists => "there is a file of that name".to_string(),
        io::ErrorKind::StorageFull => "there is no space left".to_string(),
        _ => {
            let text = error.to_string();
            text.split(" (os error").next().unwrap_or(&text).to_string()
        }
    }
}

#[cfg(test)]
mod tests {
    use super::*;

    /// The kind of the system's error under a trouble.
    fn kind(trouble: &Trouble) -> Option<io::ErrorKind> {
        trouble.source().and_then(|error| error.downcast_ref::<io::Error>()).map(io::Error::kind)
    }

    #[test]
    fn the_systems_error_is_kept_under_the_words() {
        let missing = || io::Error::from(io::ErrorKind::NotFound);
        let full = Trouble::Output(io::ErrorKind::StorageFull.into());
        let file = Trouble::file("a.sheet", missing());
        let clerk = Trouble::clerk(Problem::over(missing(), "ended before it had answered"));
        assert_eq!(file.to_string(), "a.sheet: there is no such file");
        assert_eq!(clerk.to_string(), "the proved program ended before it had answered");
        assert_eq!(full.to_string(), "standard output: there is no space left");
        let not_found = Some(io::ErrorKind::NotFound);
        assert_eq!([file, clerk, full].each_ref().map(kind), [not_found, not_found, Some(io::ErrorKind::StorageFull)]);
    }

    #[test]
    fn what_is_only_said_has_nothing_under_it() {
        assert_eq!(kind(&Trouble::file("a.sheet", "there is no drawing")), None);
        assert_eq!(kind(&Trouble::Misuse("a command is missing".to_string())), None);
    }
}
