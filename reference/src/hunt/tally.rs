//! How many of everything a search met.
use std::fmt;

#[derive(Clone, Debug, Default, PartialEq, Eq)]
pub struct Tally {
    pub drawings: u64,
    /// By the drawing rules; these are not among the drawings.
    pub refused: u64,
    /// Drawings whose walk was ended before all selections were met.
    pub cut_off: u64,
    /// With (i).
    pub selections: u64,
    /// That fail (v).
    pub clashing: u64,
    /// That have (v) and fail (ii).
    pub in_pieces: u64,
    pub solids: u64,
    /// Of the solids.
    pub pinched: u64,
    pub most_faces: usize,
    pub points_inside: u64,
    pub points_outside: u64,
    pub rays: u64,
    /// Selections that bound no region.
    pub findings: u64,
}

impl Tally {
    pub fn solid(&mut self, faces: usize, pinched: bool) {
        self.solids += 1;
        self.pinched += pinched as u64;
        self.most_faces = self.most_faces.max(faces);
    }

    /// A point with the winding numbers along its rays.
    pub fn point(&mut self, numbers: &[i64]) {
        self.rays += numbers.len() as u64;
        self.points_outside += (numbers.first() == Some(&0)) as u64;
        self.points_inside += (numbers.first() == Some(&1)) as u64;
    }
}

impl fmt::Display for Tally {
    fn fmt(&self, f: &mut fmt::Formatter) -> fmt::Result {
        writeln!(f, "drawings refused: {}", self.refused)?;
        writeln!(f, "drawings searched: {}", self.drawings)?;
        writeln!(f, "searches cut off: {}", self.cut_off)?;
        writeln!(f, "selections: {}", self.selections)?;
        writeln!(f, "selections that clash: {}", self.clashing)?;
        writeln!(f, "selections in pieces: {}", self.in_pieces)?;
        writeln!(f, "solids not pinched: {}", self.solids - self.pinched)?;
        writeln!(f, "solids pinched: {}", self.pinched)?;
        writeln!(f, "most faces: {}", self.most_faces)?;
        writeln!(f, "points inside: {}", self.points_inside)?;
        writeln!(f, "points outside: {}", self.points_outside)?;
        writeln!(f, "rays: {}", self.rays)?;
        writeln!(f, "findings: {}", self.findings)
    }
}
