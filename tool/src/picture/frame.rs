//! How a drawing is fitted into a rectangle of the picture, in pixels.
use super::flat::Point;

/// A rectangle: its left upper corner, its width and its height.
#[derive(Clone, Copy, Debug)]
pub struct Rectangle {
    pub left: f64,
    pub top: f64,
    pub width: f64,
    pub height: f64,
}

/// From right and up, in centimetres, to pixels, which count downwards.
#[derive(Clone, Copy, Debug)]
pub struct Frame {
    scale: f64,
    from: Point,
    to: Point,
}

impl Frame {
    /// The largest that shows all points in the rectangle, in its middle.
    pub fn fit(points: &[[f64; 3]], room: Rectangle) -> Frame {
        let [x, y] = [0, 1].map(|axis| range(points, axis));
        let (width, height) = (x[1] - x[0], y[1] - y[0]);
        // infinite where all points are on a line that needs no room this way
        let scale = (room.width / width).min(room.height / height);
        Frame {
            scale: if scale.is_finite() { scale } else { 1.0 },
            from: [(x[0] + x[1]) / 2.0, (y[0] + y[1]) / 2.0],
            to: [room.left + room.width / 2.0, room.top + room.height / 2.0],
        }
    }

    pub fn at(&self, p: Point) -> Point {
        [self.to[0] + self.scale * (p[0] - self.from[0]), self.to[1] - self.scale * (p[1] - self.from[1])]
    }
}

fn range(points: &[[f64; 3]], axis: usize) -> [f64; 2] {
    let first = points.first().map_or(0.0, |p| p[axis]);
    points.iter().fold([first, first], |range, p| [range[0].min(p[axis]), range[1].max(p[axis])])
}
