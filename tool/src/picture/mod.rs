//! Pictures of drawings: wires, walls of a solid with hidden edges dashed, the place that a rule refuses. No volumes.
mod ambiguous;
mod axes;
pub mod escape;
mod flat;
mod frame;
mod hidden;
mod labels;
mod mark;
mod order;
mod panel;
mod seen;
mod shade;
mod small;
mod split;
mod svg;
mod triangles;
mod view;
mod whole;
mod wire;

#[cfg(test)]
pub mod tests;

use crate::model::{Conversion, Drawing};

/// A picture of a drawing and of what its conversion found, as an SVG file.
pub fn picture(drawing: &Drawing, conversion: &Conversion) -> String {
    match conversion {
        Conversion::Report { solids, .. } if solids.len() > 1 => ambiguous::picture(drawing, conversion, solids),
        _ => whole::picture(drawing, conversion),
    }
}

/// The same as a small SVG that can stand in a page, thousands of times.
pub fn small(drawing: &Drawing, conversion: &Conversion) -> String {
    small::picture(drawing, conversion)
}
