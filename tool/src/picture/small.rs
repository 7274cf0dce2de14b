//! A picture for a page's row, about 1 KB: the one solid, or the wires where there is none or more than one.
use super::frame::Rectangle;
use super::mark::{heading, Mark};
use super::panel::Panel;
use super::seen::Seen;
use super::shade::Tone;
use super::svg::Svg;
use super::whole::only;
use crate::model::{Conversion, Drawing};

const WIDTH: f64 = 96.0;
const HEIGHT: f64 = 72.0;
const ROOM: Rectangle = Rectangle { left: 8.0, top: 8.0, width: WIDTH - 16.0, height: HEIGHT - 16.0 };

pub fn picture(drawing: &Drawing, conversion: &Conversion) -> String {
    let solid = only(conversion);
    let seen = Seen::new(drawing, solid.map_or(&[], std::slice::from_ref));
    let panel = Panel::new(&seen, ROOM, 0.6);
    let mut svg = Svg::inline(WIDTH, HEIGHT, &heading(conversion));
    match solid {
        Some(solid) => panel.solid(&mut svg, solid, |_| Tone::Only),
        None => panel.wire(&mut svg, Mark::of(drawing, conversion), 2.4),
    }
    svg.end()
}
