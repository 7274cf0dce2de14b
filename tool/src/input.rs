//! Files as they are named and read: sheets and face lists by their first bytes, texts up to a length.
use crate::trouble::Problem;
use std::ffi::OsStr;
use std::fs::File;
use std::io::{self, Read};
use std::path::Path;

/// What the pipe takes of a sheet or a face list; a longer one has the same answer (docs/PIPE.md).
pub const ITEM: usize = 1_024;

/// The first bytes of a sheet or a face list; `-` is standard input.
pub fn item(file: &OsStr) -> Result<Vec<u8>, Problem> {
    first(file, ITEM)
}

/// The same of a file on the disk: a pipe that no one writes to would keep all that come after it waiting.
pub fn stored(file: &Path) -> Result<Vec<u8>, Problem> {
    match std::fs::metadata(file) {
        Ok(found) if found.is_file() || found.is_dir() => item(file.as_os_str()),
        Ok(_) => Err("it is no file on the disk".into()),
        Err(error) => Err(error.into()),
    }
}

/// So many bytes of a file at the most, so that one of any size, or one without an end, is no trouble.
pub fn first(file: &OsStr, most: usize) -> Result<Vec<u8>, Problem> {
    let read =
        if file == "-" { taken(io::stdin().lock(), most) } else { File::open(file).and_then(|f| taken(f, most)) };
    read.map_err(Problem::from)
}

fn taken(from: impl Read, most: usize) -> io::Result<Vec<u8>> {
    let mut bytes = vec![];
    from.take(most as u64).read_to_end(&mut bytes)?;
    Ok(bytes)
}

/// A name for a message of one line: control characters are escaped, and bytes that are no text replaced.
pub fn shown(name: impl AsRef<OsStr>) -> String {
    let mut line = String::new();
    for letter in name.as_ref().to_string_lossy().chars() {
        if letter.is_control() {
            line.extend(letter.escape_default());
        } else {
            line.push(letter);
        }
    }
    line
}

#[cfg(test)]
mod tests {
    use super::*;
    use std::error::Error;

    #[test]
    fn a_name_is_one_line() {
        assert_eq!(shown("a\nb\u{1b}[1m.sheet"), "a\\nb\\u{1b}[1m.sheet");
    }

    #[test]
    fn why_a_file_is_not_read_is_kept() {
        let problem = item(OsStr::new("/no/such/file")).expect_err("there is none");
        let error = problem.source().and_then(|error| error.downcast_ref::<io::Error>());
        assert_eq!(error.map(io::Error::kind), Some(io::ErrorKind::NotFound));
    }

    #[test]
    fn a_file_without_an_end_is_read_at_its_start() {
        assert_eq!(item(OsStr::new("/dev/zero")).map(|bytes| bytes.len()).ok(), Some(ITEM));
    }
}
