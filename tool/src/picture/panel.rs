//! One body or wire drawing in its rectangle of the picture.
use super::flat::{between, Point};
use super::frame::{Frame, Rectangle};
use super::hidden::{parts, Part};
use super::labels::{places, Spot};
use super::mark::Mark;
use super::order::back_to_front;
use super::seen::Seen;
use super::shade::{shade, Tone, HIDDEN, LINE, TEXT, WARNING};
use super::svg::{number, Letters, Svg};
use super::view::flat;
use super::wire;
use crate::model::Solid;

pub struct Panel<'a> {
    seen: &'a Seen,
    frame: Frame,
    /// How thick lines are: 1 in a picture of its own.
    pen: f64,
}

impl<'a> Panel<'a> {
    pub fn new(seen: &'a Seen, room: Rectangle, pen: f64) -> Panel<'a> {
        Panel { seen, frame: Frame::fit(&seen.points, room), pen }
    }

    /// The walls that can be seen, back to front; then the edges, dashed where they are behind a wall.
    pub fn solid(&self, svg: &mut Svg, solid: &Solid, tone: impl Fn(usize) -> Tone) {
        let walls = self.seen.walls(&solid.faces);
        svg.group("stroke-width=\".7\"", |svg| {
            for piece in back_to_front(&walls) {
                let wall = &walls[piece.wall];
                let outline: Vec<Point> = piece.outline.iter().map(|&p| self.frame.at(p)).collect();
                svg.polygon(&outline, &shade(tone(wall.candidate), wall.normal));
            }
        });
        let (behind, open): (Vec<Part>, Vec<Part>) = parts(self.seen, &walls).into_iter().partition(|part| part.hidden);
        let dashes = number(3.0 * self.pen);
        svg.lines(&self.shown(&behind), &format!("{} stroke-dasharray=\"{dashes}\"", self.stroke(HIDDEN, 1.0)));
        svg.lines(&self.shown(&open), &self.stroke(LINE, 1.6));
    }

    /// The edges alone, with gaps where one passes before another, and the place that is refused.
    pub fn wire(&self, svg: &mut Svg, mark: Mark, gap: f64) {
        svg.lines(&wire::lines(self.seen, &self.frame, gap), &self.stroke(LINE, 1.4));
        match mark {
            Mark::Nothing => {}
            Mark::Vertex(vertex) => svg.circle(self.vertex(vertex), 7.0 * self.pen, &self.stroke(WARNING, 2.5)),
            Mark::Edge(edge) => svg.lines(&[self.line(edge)], &self.stroke(WARNING, 4.5)),
        }
    }

    /// A dot and a number for each vertex, a marked one in the warning colour; and the number of a marked edge.
    pub fn numbers(&self, svg: &mut Svg, size: f64, mark: Mark) {
        let plain = Letters { size, colour: TEXT, bold: false, anchor: "middle" };
        let warning = Letters { size: size + 2.0, colour: WARNING, bold: true, anchor: "middle" };
        let mut labels = Vec::new();
        for vertex in 0..self.seen.points.len() {
            let (letters, away) = if mark == Mark::Vertex(vertex) { (warning, 17.0) } else { (plain, size) };
            labels.push((Spot { at: self.vertex(vertex), away }, letters, vertex.to_string()));
            svg.circle(self.vertex(vertex), 1.8, &format!("fill=\"{LINE}\""));
        }
        if let Mark::Edge(edge) = mark {
            let [from, to] = self.line(edge);
            labels.push((Spot { at: between(from, to, 0.4), away: 26.0 }, warning, format!("edge {edge}")));
        }
        let spots: Vec<Spot> = labels.iter().map(|label| label.0).collect();
        let lines: Vec<[Point; 2]> = (0..self.seen.edges.len()).map(|edge| self.line(edge)).collect();
        for (place, (_, letters, words)) in places(&spots, &lines).into_iter().zip(labels) {
            // from the middle of the letters down to their line
            svg.text([place[0], place[1] + letters.size * 0.36], letters, &words);
        }
    }

    fn vertex(&self, vertex: usize) -> Point {
        self.frame.at(flat(self.seen.points[vertex]))
    }

    fn line(&self, edge: usize) -> [Point; 2] {
        self.seen.edges[edge].map(|end| self.vertex(end))
    }

    fn shown(&self, parts: &[Part]) -> Vec<[Point; 2]> {
        parts.iter().map(|part| part.ends.map(|end| self.frame.at(end))).collect()
    }

    fn stroke(&self, colour: &str, width: f64) -> String {
        format!("stroke=\"{colour}\" stroke-width=\"{}\"", number(width * self.pen))
    }
}
