//! What is written: standard output, and files that appear whole or not at all.
use crate::input::shown;
use crate::trouble::{Trouble, FINE};
use std::ffi::OsStr;
use std::fs::{self, File, OpenOptions};
use std::io::{self, BufWriter, IsTerminal, Write};
use std::path::{Path, PathBuf};

/// Writes to standard output.
pub fn put(bytes: &[u8]) -> Result<(), Trouble> {
    let mut out = io::stdout().lock();
    out.write_all(bytes).and_then(|()| out.flush()).map_err(Trouble::Output)
}

/// Writes a text to standard output, and that was all.
pub fn say(text: &str) -> Result<u8, Trouble> {
    put(text.as_bytes()).map(|()| FINE)
}

/// Writes to a file, or to standard output where none or `-` is named; bytes that are no text not to a terminal.
pub fn save(file: Option<&OsStr>, bytes: &[u8], is_text: bool) -> Result<(), Trouble> {
    match file {
        Some(name) if name != "-" => saved(Path::new(name), bytes).map_err(|error| Trouble::file(shown(name), error)),
        None if !is_text && io::stdout().is_terminal() => {
            Err(Trouble::Misuse("this is no text for a terminal; name a file with -o".to_string()))
        }
        _ => put(bytes),
    }
}

fn saved(target: &Path, bytes: &[u8]) -> io::Result<()> {
    let mut draft = Draft::begin(target)?;
    draft.write_all(bytes)?;
    draft.settle()?;
    draft.appear()
}

/// A file that is being written beside its place, so that a full disk or an early end leaves no half of it there. A
/// device is written to directly.
pub struct Draft {
    out: BufWriter<File>,
    /// The file beside, until it has got its place.
    part: Option<PathBuf>,
    target: PathBuf,
}

impl Draft {
    pub fn begin(target: &Path) -> io::Result<Draft> {
        // A link stays a link: what it leads to is written.
        let target = fs::canonicalize(target).unwrap_or_else(|_| target.to_path_buf());
        if fs::metadata(&target).is_ok_and(|found| !found.is_file()) {
            let out = BufWriter::new(OpenOptions::new().write(true).open(&target)?);
            return Ok(Draft { out, part: None, target });
        }
        let name = target.file_name().ok_or(io::ErrorKind::IsADirectory)?;
        let part = target.with_file_name(format!(".{}.{}.part", name.to_string_lossy(), std::process::id()));
        let out = BufWriter::new(File::create(&part)?);
        Ok(Draft { out, part: Some(part), target })
    }

    /// All that was written is on the disk.
    pub fn settle(&mut self) -> io::Result<()> {
        self.out.flush()?;
        if self.part.is_some() {
            self.out.get_ref().sync_all()?;
        }
        Ok(())
    }

    /// Gives a settled file its place.
    pub fn appear(mut self) -> io::Result<()> {
        if let Some(part) = &self.part {
            fs::rename(part, &self.target)?;
        }
        self.part = None;
        Ok(())
    }
}

impl Write for Draft {
    fn write(&mut self, bytes: &[u8]) -> io::Result<usize> {
        self.out.write(bytes)
    }

    fn flush(&mut self) -> io::Result<()> {
        self.out.flush()
    }
}

impl Drop for Draft {
    fn drop(&mut self) {
        if let Some(part) = &self.part {
            let _ = fs::remove_file(part);
        }
    }
}
