//! The picture of an ambiguous drawing: its solids side by side, with the walls coloured by which they differ.
use super::axes;
use super::frame::Rectangle;
use super::mark::{heading, Mark};
use super::panel::Panel;
use super::seen::Seen;
use super::shade::{shade, Tone, HIDDEN, TEXT, WARNING};
use super::svg::{Letters, Svg};
use super::whole::counts;
use crate::model::{shared, Conversion, Drawing, Solid};
use nibgravel_numbers::MOST_CANDIDATES;

const PANEL: [f64; 2] = [280.0, 280.0];
const TOP: f64 = 84.0;
const BOTTOM: f64 = 76.0;

pub fn picture(drawing: &Drawing, conversion: &Conversion, solids: &[Solid]) -> String {
    let (seen, heading) = (Seen::new(drawing, solids), heading(conversion));
    let columns = columns(solids.len());
    let width = PANEL[0] * columns as f64;
    let height = TOP + PANEL[1] * solids.len().div_ceil(columns) as f64 + BOTTOM;
    let description = "The solids side by side; walls that only some of them have are orange, the others grey.";
    let mut svg = Svg::file(width, height, &heading, &format!("{}. {description}", counts(drawing)));
    svg.text([20.0, 30.0], Letters { size: 17.0, colour: WARNING, bold: true, anchor: "start" }, &heading);
    svg.text([20.0, 48.0], Letters { size: 12.0, colour: TEXT, bold: false, anchor: "start" }, &counts(drawing));
    let shared = shared(solids);
    let tone = |candidate: usize| if is_in(shared, candidate) { Tone::Shared } else { Tone::Differing };
    for (number, solid) in solids.iter().enumerate() {
        let [left, top] = [PANEL[0] * (number % columns) as f64, TOP + PANEL[1] * (number / columns) as f64];
        let room = Rectangle { left: left + 30.0, top: top + 24.0, width: PANEL[0] - 60.0, height: PANEL[1] - 70.0 };
        let panel = Panel::new(&seen, room, 0.85);
        let title = Letters { size: 13.0, colour: TEXT, bold: true, anchor: "start" };
        svg.text([left + 20.0, top], title, &format!("solid {}", number + 1));
        panel.solid(&mut svg, solid, tone);
        panel.numbers(&mut svg, 9.0, Mark::Nothing);
    }
    legend(&mut svg, height);
    axes::draw(&mut svg, &seen.view, [width - 40.0, height - 30.0]);
    svg.end()
}

/// As many solids in a row as make the picture neither long nor high.
fn columns(solids: usize) -> usize {
    match solids {
        0..=3 => solids.max(1),
        4 => 2,
        5 | 6 => 3,
        _ => 4,
    }
}

fn is_in(set: u64, candidate: usize) -> bool {
    candidate < MOST_CANDIDATES && set >> candidate & 1 == 1
}

fn legend(svg: &mut Svg, height: f64) {
    let letters = Letters { size: 12.0, colour: TEXT, bold: false, anchor: "start" };
    let lines =
        [(Tone::Differing, "a wall that only some of the solids have"), (Tone::Shared, "a wall that all of them have")];
    for (row, (tone, words)) in lines.into_iter().enumerate() {
        let y = height - 56.0 + 19.0 * row as f64;
        svg.square([20.0, y - 10.0], 12.0, &shade(tone, [0.0, 0.5, 0.5]));
        svg.text([40.0, y], letters, words);
    }
    svg.text([20.0, height - 16.0], Letters { colour: HIDDEN, ..letters }, "dashed: an edge behind a wall");
}
