//! Drawing rules 11 to 14, on a drawing that has passed 3 to 10.
use crate::drawing::Drawing;
use crate::numbers::*;
use crate::polygon::Point;
use crate::vector::*;

pub fn rules_11_to_14(d: &Drawing) -> Result<(), Refusal> {
    let mut vertices = 0..d.vertices.len();
    if let Some(v) = vertices.clone().find(|v| same_place(d, *v)) {
        return refuse(SAME_PLACE, v);
    }
    if let Some(v) = vertices.clone().find(|v| !d.edges.iter().any(|(a, b)| a == v || b == v)) {
        return refuse(LOOSE_VERTEX, v);
    }
    if let Some(e) = (0..d.edges.len()).find(|e| edge_meets(d, *e)) {
        return refuse(EDGE_MEETS, e);
    }
    let reached = reached_from_0(d);
    if let Some(v) = vertices.find(|v| !reached[*v]) {
        return refuse(APART, v);
    }
    Ok(())
}

fn same_place(d: &Drawing, v: usize) -> bool {
    (0..d.vertices.len()).any(|w| w != v && d.vertices[w] == d.vertices[v])
}

/// Does the edge share a point with a vertex or another edge other than at its own end vertices?
fn edge_meets(d: &Drawing, e: usize) -> bool {
    let ends = |e: usize| (d.point(d.edges[e].0), d.point(d.edges[e].1));
    let (a, b) = ends(e);
    let on_it = |p: Point| cross(sub(b, a), sub(p, a)) == [0; 3] && dot(sub(p, a), sub(p, b)) < 0;
    (0..d.vertices.len()).any(|v| on_it(d.point(v)))
        || (0..d.edges.len()).any(|f| f != e && shares_more_than_ends(a, b, ends(f)))
}

/// Do the closed segments ab and cd share a point that is neither a nor b?
fn shares_more_than_ends(a: Point, b: Point, (c, d): (Point, Point)) -> bool {
    let (u, w, r) = (sub(b, a), sub(d, c), sub(c, a));
    let n = cross(u, w);
    if n == [0; 3] {
        return cross(u, r) == [0; 3] && overlap(dot(u, u), dot(r, u), dot(sub(d, a), u));
    }
    // a + s u = c + t w has one solution where the lines meet: s = (r x w).n / n.n and t = (r x u).n / n.n
    let (nn, s, t) = (dot(n, n), dot(cross(r, w), n), dot(cross(r, u), n));
    dot(r, n) == 0 && 0 < s && s < nn && 0 <= t && t <= nn
}

/// On one line: does the stretch from c to d share a point with the open one from 0 to b?
fn overlap(b: i128, c: i128, d: i128) -> bool {
    let (low, high) = (c.min(d).max(0), c.max(d).min(b));
    low < high || (low == high && 0 < low && low < b)
}

fn reached_from_0(d: &Drawing) -> Vec<bool> {
    let mut reached = vec![false; d.vertices.len()];
    reached[0] = true;
    // A way has at most as many edges as there are vertices.
    for _ in 0..d.vertices.len() {
        for (a, b) in &d.edges {
            let either = reached[*a] || reached[*b];
            reached[*a] = either;
            reached[*b] = either;
        }
    }
    reached
}
