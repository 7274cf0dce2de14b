//! What cases are made, and of what size.
use crate::drawing::Drawing;
use crate::gen::rng::Rng;
use crate::gen::sheets::counted_drawing;

/// What cases are made.
#[derive(Clone, Copy)]
pub struct Order {
    pub seed: u64,
    /// The most solids reported.
    pub cap: usize,
    pub size: Size,
}

/// The bounds of a case.
#[derive(Clone, Copy)]
pub struct Size {
    /// Most drawings have at most the first number of vertices, a few up to the second.
    pub vertices: (usize, usize),
    pub loops: u32,
    pub work: u32,
}

/// Small enough to be worked out by a proof assistant.
pub const SMALL: Size = Size { vertices: (10, 16), loops: 100, work: 60 };
/// Anything that the clear version does in a moment.
pub const ANY: Size = Size { vertices: (32, 32), loops: 128, work: 3_000 };

impl Size {
    pub fn drawing(&self, r: &mut Rng) -> Drawing {
        let most = if r.chance(85) { self.vertices.0 } else { self.vertices.1 };
        counted_drawing(r, most)
    }

    pub fn admits(&self, vertices: usize) -> bool {
        vertices <= self.vertices.1
    }
}

/// Tries until a case answers as aimed at, or long enough; then the last one has to do.
pub fn aimed<T>(r: &mut Rng, mut make: impl FnMut(&mut Rng) -> T, good: impl Fn(&T) -> bool) -> T {
    for _ in 0..1_000 {
        let case = make(r);
        if good(&case) {
            return case;
        }
    }
    make(r)
}
