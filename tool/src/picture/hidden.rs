//! Which parts of the edges lie behind a wall.
use super::flat::{between, inside, meeting, Point, TINY};
use super::seen::{Seen, Wall};

/// A part of an edge that is seen as a whole or hidden as a whole.
#[derive(Clone, Debug, PartialEq)]
pub struct Part {
    pub edge: usize,
    pub ends: [Point; 2],
    pub hidden: bool,
}

/// All edges in parts, in their order.
pub fn parts(seen: &Seen, walls: &[Wall]) -> Vec<Part> {
    let outlines: Vec<Vec<Point>> = walls.iter().map(Wall::outline).collect();
    (0..seen.edges.len()).flat_map(|edge| parts_of(seen, walls, &outlines, edge)).collect()
}

fn parts_of(seen: &Seen, walls: &[Wall], outlines: &[Vec<Point>], edge: usize) -> Vec<Part> {
    let line = seen.line(edge);
    let cuts = cuts(seen, edge);
    let mut parts: Vec<Part> = Vec::new();
    for pair in cuts.windows(2) {
        let hidden = is_hidden(seen, walls, outlines, edge, (pair[0] + pair[1]) / 2.0);
        let to = between(line[0], line[1], pair[1]);
        match parts.last_mut() {
            Some(last) if last.hidden == hidden => last.ends[1] = to,
            _ => parts.push(Part { edge, ends: [between(line[0], line[1], pair[0]), to], hidden }),
        }
    }
    parts
}

/// Where it may change whether the edge is seen: at its ends, and where other edges meet it on the picture.
fn cuts(seen: &Seen, edge: usize) -> Vec<f64> {
    let line = seen.line(edge);
    let crossing = (0..seen.edges.len()).filter_map(|other| Some(meeting(line, seen.line(other))?[0]));
    let mut cuts: Vec<f64> = [0.0, 1.0].into_iter().chain(crossing).collect();
    cuts.sort_by(f64::total_cmp);
    cuts.dedup_by(|next, kept| *next - *kept < TINY);
    // a cut just before the end may have been kept in place of the end
    if let Some(last) = cuts.last_mut().filter(|last| **last > 0.5) {
        *last = 1.0;
    }
    cuts
}

/// Whether a wall is in front of the edge's point that is `part` of the way along it.
fn is_hidden(seen: &Seen, walls: &[Wall], outlines: &[Vec<Point>], edge: usize, part: f64) -> bool {
    let [from, to] = seen.edges[edge];
    let line = seen.line(edge);
    let p = between(line[0], line[1], part);
    let near = seen.nearness(edge, part);
    walls.iter().zip(outlines).any(|(wall, outline)| {
        let own = wall.corners.contains(&from) && wall.corners.contains(&to);
        !own && inside(p, outline) && wall.nearness(p) > near + TINY
    })
}
