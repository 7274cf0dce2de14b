//! What is said over a picture, and the place in it that a rule refuses.
use crate::model::{Conversion, Drawing, Refusal};
use nibgravel_numbers::Number;

/// The place that is marked.
#[derive(Clone, Copy, Debug, PartialEq, Eq)]
pub enum Mark {
    Nothing,
    Vertex(usize),
    Edge(usize),
}

impl Mark {
    /// The place of a refusal by 11 to 14; other refusals have none that could be seen.
    pub fn of(drawing: &Drawing, conversion: &Conversion) -> Mark {
        let Conversion::Refused(Refusal { number, place }) = *conversion else { return Mark::Nothing };
        let place = usize::try_from(place).unwrap_or(usize::MAX);
        match number {
            Number::SamePlace | Number::LooseVertex | Number::Apart if place < drawing.vertices.len() => {
                Mark::Vertex(place)
            }
            Number::EdgeMeets if place < drawing.edges.len() => Mark::Edge(place),
            _ => Mark::Nothing,
        }
    }
}

/// The heading: what the answer is. It never has a volume.
pub fn heading(conversion: &Conversion) -> String {
    match conversion {
        Conversion::Report { solids, .. } if solids.len() == 1 => "one solid".to_string(),
        Conversion::Report { solids, .. } => format!("ambiguous: {} solids", solids.len()),
        Conversion::Ended { number, search } => number.at(search.work),
        Conversion::Refused(refusal) => refusal.to_string(),
    }
}
