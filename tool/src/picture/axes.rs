//! The directions x, y and z in a corner of the picture.
use super::shade::HIDDEN;
use super::svg::{Letters, Svg};
use super::view::{flat, View};

/// The length of an axis that isn't foreshortened, in pixels.
const LENGTH: f64 = 24.0;

pub fn draw(svg: &mut Svg, view: &View, origin: [f64; 2]) {
    let letters = Letters { size: 10.0, colour: HIDDEN, bold: false, anchor: "middle" };
    for (name, axis) in [("x", [1, 0, 0]), ("y", [0, 1, 0]), ("z", [0, 0, 1])] {
        let [right, up] = flat(view.seen(axis));
        let end = |length: f64| [origin[0] + length * right, origin[1] - length * up];
        svg.lines(&[[origin, end(LENGTH)]], &format!("stroke=\"{HIDDEN}\""));
        let [x, y] = end(LENGTH * 1.3);
        svg.text([x, y + 3.5], letters, name);
    }
}
