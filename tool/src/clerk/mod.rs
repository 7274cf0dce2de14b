//! The proved program at the other end of a pipe: started once, asked, and each reply looked at before it is believed.
mod reply;
mod report;
mod request;
mod start;
mod words;

pub use request::Request;

use crate::model::{Assessment, Conversion, Drawing, Reading, Refusal};
use crate::trouble::Trouble;
use nibgravel_numbers::{Number, SHEET_RULES};
use start::Running;
use words::Parsed;

const TWO_THINGS: &str = "said two things of one sheet that can't both be true";

pub struct Clerk {
    running: Running,
}

impl Clerk {
    /// Starts the proved program and hears that it is the one that docs/PIPE.md describes.
    pub fn start() -> Result<Clerk, Trouble> {
        Ok(Clerk { running: Running::start()? })
    }

    /// Puts a request into line. Its reply is the next one that was not heard yet, so any number may be asked ahead.
    pub fn ask(&mut self, request: Request) {
        self.running.send(request.bytes());
    }

    /// Asks for all that is said of a sheet; [`Clerk::assessment`] hears it.
    pub fn ask_all(&mut self, sheet: &[u8], limit: u64) {
        self.ask(Request::Read { sheet });
        self.ask(Request::Convert { sheet, limit });
    }

    pub fn assessment(&mut self) -> Result<Assessment, Trouble> {
        let drawing = self.drawing()?;
        let (conversion, reading) = self.conversion()?;
        fits(&drawing, &conversion).map_err(Trouble::clerk)?;
        Ok(Assessment { drawing: drawing.ok(), conversion, reading })
    }

    pub fn drawing(&mut self) -> Result<Result<Drawing, Refusal>, Trouble> {
        self.hear(reply::read)
    }

    pub fn conversion(&mut self) -> Result<(Conversion, Reading), Trouble> {
        self.hear(reply::converted)
    }

    /// Asks for the verdict on a face list; [`Clerk::verdict`] hears it. The sheet is read too: a reply of nothing but
    /// zeros would be an acceptance, and is no drawing.
    pub fn ask_verdict(&mut self, sheet: &[u8], list: &[u8]) {
        self.ask(Request::Read { sheet });
        self.ask(Request::Check { sheet, list });
    }

    pub fn verdict(&mut self) -> Result<Result<(), Refusal>, Trouble> {
        let (drawing, verdict) = (self.drawing()?, self.hear(reply::checked)?);
        let one = match drawing {
            Ok(_) => !unread(verdict.err()),
            Err(refusal) => verdict == Err(refusal),
        };
        one.then_some(verdict).ok_or_else(|| Trouble::clerk(TWO_THINGS))
    }

    pub fn sheet(&mut self) -> Result<Result<Vec<u8>, Refusal>, Trouble> {
        let can_get = [Number::BadCount, Number::BadCoordinate, Number::BadEdge, Number::EdgeOrder];
        self.hear(|bytes: &[u8; reply::SHEET]| reply::written(bytes, |number| can_get.contains(number)))
    }

    pub fn face_list(&mut self) -> Result<Result<Vec<u8>, Refusal>, Trouble> {
        self.hear(|bytes: &[u8; reply::LIST]| reply::written(bytes, |number| *number == Number::ShellShape))
    }

    /// The desk's text has every refusal in it, so there is none beside it.
    pub fn desk(&mut self) -> Result<Vec<u8>, Trouble> {
        let text = self.hear(|bytes: &[u8; reply::DESK]| reply::written(bytes, |_| false))?;
        text.map_err(|_| Trouble::clerk("said no text of the desk"))
    }

    fn hear<const N: usize, T>(&mut self, parsed: impl Fn(&[u8; N]) -> Parsed<T>) -> Result<T, Trouble> {
        parsed(&self.running.reply()?).map_err(Trouble::clerk)
    }
}

/// The rows of a report, for [`Request::Faces`].
pub fn rows(candidates: &[Vec<usize>]) -> Vec<u8> {
    report::rows(candidates)
}

/// Whether a sheet is refused where it is read.
fn unread(refused: Option<Refusal>) -> bool {
    refused.is_some_and(|refusal| SHEET_RULES.contains(&refusal.number))
}

/// Whether a sheet read and the same sheet converted can be true together.
fn fits(drawing: &Result<Drawing, Refusal>, conversion: &Conversion) -> Parsed<()> {
    let refused = match conversion {
        Conversion::Refused(refusal) => Some(*refusal),
        _ => None,
    };
    let bad_limit = refused.is_some_and(|refusal| refusal.number <= Number::BadLimit);
    let one = match drawing {
        Ok(drawing) => !unread(refused) && corners(conversion).all(|corner| corner < drawing.vertices.len()),
        Err(refusal) => bad_limit || *conversion == Conversion::Refused(*refusal),
    };
    if one {
        Ok(())
    } else {
        Err(TWO_THINGS.to_string())
    }
}

fn corners(conversion: &Conversion) -> impl Iterator<Item = usize> + '_ {
    let candidates: &[Vec<usize>] = match conversion {
        Conversion::Report { candidates, .. } => candidates,
        _ => &[],
    };
    candidates.iter().flatten().copied()
}

#[cfg(test)]
mod tests;
