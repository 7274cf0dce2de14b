//! The picture of one solid, or of a drawing without a report.
use super::axes;
use super::frame::Rectangle;
use super::mark::{heading, Mark};
use super::panel::Panel;
use super::seen::Seen;
use super::shade::{Tone, HIDDEN, TEXT, WARNING};
use super::svg::{Letters, Svg};
use crate::model::{Conversion, Drawing, Solid};

const WIDTH: f64 = 480.0;
const HEIGHT: f64 = 436.0;
const ROOM: Rectangle = Rectangle { left: 40.0, top: 64.0, width: 400.0, height: 290.0 };

pub fn picture(drawing: &Drawing, conversion: &Conversion) -> String {
    let (heading, counts) = (heading(conversion), counts(drawing));
    let (solid, mark) = (only(conversion), Mark::of(drawing, conversion));
    let seen = Seen::new(drawing, solid.map_or(&[], std::slice::from_ref));
    let mut svg = Svg::file(WIDTH, HEIGHT, &heading, &format!("{counts}. {}", description(solid, mark)));
    let colour = if solid.is_some() { TEXT } else { WARNING };
    svg.text([20.0, 30.0], Letters { size: 17.0, colour, bold: true, anchor: "start" }, &heading);
    svg.text([20.0, 48.0], Letters { size: 12.0, colour: TEXT, bold: false, anchor: "start" }, &counts);
    let panel = Panel::new(&seen, ROOM, 1.0);
    match solid {
        Some(solid) => panel.solid(&mut svg, solid, |_| Tone::Only),
        None => panel.wire(&mut svg, mark, 7.0),
    }
    panel.numbers(&mut svg, 11.0, mark);
    axes::draw(&mut svg, &seen.view, [38.0, HEIGHT - 34.0]);
    if solid.is_some() {
        let note = Letters { size: 11.0, colour: HIDDEN, bold: false, anchor: "end" };
        svg.text([WIDTH - 20.0, HEIGHT - 16.0], note, "dashed: behind a wall");
    }
    svg.end()
}

/// The solid of a report that has one.
pub fn only(conversion: &Conversion) -> Option<&Solid> {
    match conversion {
        Conversion::Report { solids, .. } => solids.first().filter(|_| solids.len() == 1),
        _ => None,
    }
}

pub fn counts(drawing: &Drawing) -> String {
    format!("{} vertices, {} edges", drawing.vertices.len(), drawing.edges.len())
}

fn description(solid: Option<&Solid>, mark: Mark) -> String {
    match (solid, mark) {
        (Some(solid), _) => {
            format!("The solid's {} walls are shaded; edges behind a wall are dashed.", solid.faces.len())
        }
        (None, Mark::Nothing) => "The wire drawing.".to_string(),
        (None, Mark::Vertex(vertex)) => format!("The wire drawing; vertex {vertex} is ringed."),
        (None, Mark::Edge(edge)) => format!("The wire drawing; edge {edge} is thick."),
    }
}
