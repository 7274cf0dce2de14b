//! The edges without walls: where two only seem to cross, the farther one has a gap, so that it shows what meets.
use super::flat::{between, cross, length, meeting, minus, Point};
use super::frame::Frame;
use super::seen::Seen;

/// All edges in pixels, with gaps of this width round the edges that pass before them.
pub fn lines(seen: &Seen, frame: &Frame, gap: f64) -> Vec<[Point; 2]> {
    let whole: Vec<[Point; 2]> = (0..seen.edges.len()).map(|edge| seen.line(edge).map(|end| frame.at(end))).collect();
    let mut lines = Vec::new();
    for (edge, line) in whole.iter().enumerate() {
        let mut gaps: Vec<[f64; 2]> =
            (0..whole.len()).filter_map(|other| gap_at(seen, &whole, edge, other, gap)).collect();
        gaps.sort_by(|a, b| a[0].total_cmp(&b[0]));
        let mut from = 0.0;
        for [begin, end] in gaps.into_iter().chain([[1.0, 1.0]]) {
            if begin > from {
                lines.push([between(line[0], line[1], from), between(line[0], line[1], begin)]);
            }
            from = end.max(from);
        }
    }
    lines
}

/// The part of an edge that is left out because another passes before it.
fn gap_at(seen: &Seen, whole: &[[Point; 2]], edge: usize, other: usize, gap: f64) -> Option<[f64; 2]> {
    if seen.edges[edge].iter().any(|end| seen.edges[other].contains(end)) {
        return None;
    }
    let [at, before] = meeting(whole[edge], whole[other])?;
    if !seen.is_nearer((other, before), (edge, at)) {
        return None;
    }
    let [u, v] = [edge, other].map(|edge| minus(whole[edge][1], whole[edge][0]));
    // a flat crossing needs a longer gap, within reason
    let slant = (cross(u, v).abs() / (length(u) * length(v))).max(0.3);
    // a short edge stays an edge
    let half = (gap / 2.0 / slant / length(u)).min(0.1);
    Some([at - half, at + half])
}
