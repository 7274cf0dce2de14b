//! Loops and their normal form (refusal 15), found by trying every path in every plane.
use crate::drawing::{Drawing, Loop};
use crate::numbers::*;
use crate::vector::*;
use std::collections::BTreeSet;

/// Starts at the lowest vertex, then goes to the lower of its two neighbours.
pub fn normal_form(l: &[usize]) -> Loop {
    let n = l.len();
    let lowest = (0..n).min_by_key(|k| l[*k]).expect("a loop has corners");
    let forward: Loop = (0..n).map(|i| l[(lowest + i) % n]).collect();
    let backward: Loop = (0..n).map(|i| l[(lowest + n - i) % n]).collect();
    if forward[1] <= backward[1] {
        forward
    } else {
        backward
    }
}

/// The loops in order. (Lists compare number by number, and the beginning of a list comes before it.)
pub fn find_loops(d: &Drawing, most: usize) -> Result<Vec<Loop>, Refusal> {
    let mut search = Search { near: neighbours(d), most, plane: vec![], found: BTreeSet::new() };
    for plane in planes(d) {
        search.plane = plane;
        for start in search.plane.clone() {
            search.extend(&mut vec![start]);
        }
    }
    if search.found.len() > most {
        return refuse(MANY_LOOPS, 0);
    }
    Ok(search.found.into_iter().collect())
}

fn neighbours(d: &Drawing) -> Vec<Vec<usize>> {
    let mut near = vec![vec![]; d.vertices.len()];
    for (a, b) in &d.edges {
        near[*a].push(*b);
        near[*b].push(*a);
    }
    near
}

/// Every plane through three vertices that aren't on one line, i being its lowest, as the set of all vertices in it.
/// (After rule 13 no closed path is on one line, so every loop is in one of them.)
fn planes(d: &Drawing) -> BTreeSet<Vec<usize>> {
    let vertices = 0..d.vertices.len();
    let from = |a: usize, b: usize| sub(d.point(b), d.point(a));
    let mut planes = BTreeSet::new();
    for i in vertices.clone() {
        for j in i + 1..vertices.end {
            for k in j + 1..vertices.end {
                let n = cross(from(i, j), from(i, k));
                if n != [0; 3] && (0..i).all(|v| dot(n, from(i, v)) != 0) {
                    planes.insert(vertices.clone().filter(|v| dot(n, from(i, *v)) == 0).collect());
                }
            }
        }
    }
    planes
}

struct Search {
    near: Vec<Vec<usize>>,
    most: usize,
    plane: Vec<usize>,
    found: BTreeSet<Loop>,
}

impl Search {
    /// Every closed path in the plane that goes on from this one; one loop too many ends the search.
    fn extend(&mut self, path: &mut Vec<usize>) {
        let last = path[path.len() - 1];
        for next in self.near[last].clone() {
            if self.found.len() > self.most {
                return;
            }
            if next == path[0] && path.len() >= *CORNERS.start() {
                self.found.insert(normal_form(path));
            }
            if path.len() < *CORNERS.end() && self.plane.contains(&next) && !path.contains(&next) {
                path.push(next);
                self.extend(path);
                path.pop();
            }
        }
    }
}

/// The edge numbers along a loop.
pub fn loop_edges(d: &Drawing, l: &[usize]) -> Vec<usize> {
    let number = |(a, b): (usize, usize)| d.edges.iter().position(|e| *e == (a.min(b), a.max(b)));
    sides(l).map(|side| number(side).expect("a loop goes along edges")).collect()
}

/// Does the loop run this edge from its lower to its higher vertex?
pub fn runs_up(d: &Drawing, l: &[usize], edge: usize) -> bool {
    sides(l).any(|side| side == d.edges[edge])
}
