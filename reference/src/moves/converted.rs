//! What a conversion says and writes.
use crate::convert::Answer;
use crate::desk::Converter;
use crate::source::Source;

/// What a conversion says, and what it leaves in the two rooms.
#[derive(Clone, Debug, PartialEq, Eq)]
pub struct Converted {
    pub answer: Answer,
    pub faces: Vec<u8>,
    pub solids: Vec<u64>,
}

impl Converted {
    /// With rooms that hold this before.
    pub fn of(converter: Converter, source: Source, limit: u64, faces: &[u8], solids: &[u64]) -> Converted {
        let (mut faces, mut solids) = (faces.to_vec(), solids.to_vec());
        let answer = converter(source, limit, &mut faces, &mut solids);
        Converted { answer, faces, solids }
    }

    /// Three words for each solid of a report: taken, turned, six volumes.
    pub fn words(&self) -> &[u64] {
        match self.answer {
            Answer::Report { solids, .. } => &self.solids[..3 * solids as usize],
            _ => &[],
        }
    }

    /// The same with other words for each solid.
    pub fn with_words(mut self, change: impl FnMut(&mut [u64])) -> Converted {
        let words = self.words().len();
        self.solids[..words].chunks_mut(3).for_each(change);
        self
    }
}
