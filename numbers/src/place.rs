//! What the place of a refusal counts.
use crate::lengths::COORDINATES;
use crate::limits::{EDGES, FACES, MOST_WORK, VERTICES};

/// What a place counts.
#[derive(Clone, Copy, Debug, PartialEq, Eq)]
pub enum Place {
    /// Nothing: it is always 0.
    None,
    /// A list of the drawing: 0 vertices, 1 edges.
    List,
    /// A lent room: 0 faces, 1 solids.
    Room,
    /// A coordinate, three for each vertex.
    Coordinate,
    /// A vertex.
    Vertex,
    /// An edge.
    Edge,
    /// A face of a list.
    Face,
    /// Assumptions.
    Work,
}

impl Place {
    /// No place of the table is above this.
    pub fn most(self) -> usize {
        match self {
            Place::None => 0,
            Place::List | Place::Room => 1,
            Place::Coordinate => COORDINATES - 1,
            Place::Vertex => VERTICES.end() - 1,
            Place::Edge => EDGES.end() - 1,
            Place::Face => FACES.end() - 1,
            Place::Work => MOST_WORK as usize,
        }
    }

    /// In a word.
    pub fn word(self) -> &'static str {
        match self {
            Place::None => "none",
            Place::List => "list",
            Place::Room => "room",
            Place::Coordinate => "coordinate",
            Place::Vertex => "vertex",
            Place::Edge => "edge",
            Place::Face => "face",
            Place::Work => "work",
        }
    }

    /// A place in words, as `edge 4`, or `edges` of a list; nothing where it is always 0.
    pub fn told(self, place: u64) -> Option<String> {
        match (self, place) {
            (Place::None, _) => None,
            (Place::List, 0) => Some("vertices".to_string()),
            (Place::List, _) => Some("edges".to_string()),
            (counted, place) => Some(format!("{} {place}", counted.word())),
        }
    }
}
