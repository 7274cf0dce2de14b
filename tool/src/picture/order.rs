//! The order in which walls are painted, so that what is nearer comes later.
use super::flat::{area, common, middle, Point, TINY};
use super::seen::Wall;
use super::split::{split, Piece};
use super::triangles::triangles;
use super::view::flat;

/// The walls back to front. Where walls hide each other in a circle these are cut.
pub fn back_to_front(walls: &[Wall]) -> Vec<Piece> {
    let behind = behind(walls);
    let mut left: Vec<usize> = (0..walls.len()).collect();
    let mut painted = Vec::new();
    while let Some(at) = left.iter().position(|&wall| !left.iter().any(|&other| behind[wall][other])) {
        let wall = left.remove(at);
        painted.push(Piece { wall, outline: walls[wall].outline() });
    }
    painted.extend(split(walls, &left));
    painted
}

/// By wall and other wall: somewhere on the picture the other is behind the wall.
fn behind(walls: &[Wall]) -> Vec<Vec<bool>> {
    let cut: Vec<_> = walls.iter().map(corners_of_triangles).collect();
    let mut behind = vec![vec![false; walls.len()]; walls.len()];
    for a in 0..walls.len() {
        for b in a + 1..walls.len() {
            for (s, t) in cut[a].iter().flat_map(|s| cut[b].iter().map(move |t| (*s, *t))) {
                let nearer = nearer(&walls[a], &walls[b], &common(s, t));
                behind[a][b] |= nearer > TINY;
                behind[b][a] |= nearer < -TINY;
            }
        }
    }
    behind
}

/// How much nearer the first wall is where both are seen; 0 where they have nothing in common.
fn nearer(a: &Wall, b: &Wall, both: &[Point]) -> f64 {
    if area(both) < TINY {
        return 0.0;
    }
    let p = middle(both);
    a.nearness(p) - b.nearness(p)
}

fn corners_of_triangles(wall: &Wall) -> Vec<[Point; 3]> {
    let outline = wall.outline();
    triangles(&outline).into_iter().map(|triangle| triangle.map(|corner| flat(wall.points[corner]))).collect()
}
