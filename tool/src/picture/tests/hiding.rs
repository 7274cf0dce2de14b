//! Which edges are dashed.
use super::known::{self, Known};
use crate::model::Face;
use crate::picture::flat::{between, foot, inside, length, minus};
use crate::picture::hidden::{parts, Part};
use crate::picture::seen::{Seen, Wall};

fn parts_of((drawing, conversion): &Known, solid: usize) -> (Seen, Vec<Wall>, Vec<Part>) {
    let seen = Seen::new(drawing, known::solids(conversion));
    let walls = seen.walls(&known::solids(conversion)[solid].faces);
    let parts = parts(&seen, &walls);
    (seen, walls, parts)
}

/// The edges that are hidden as a whole.
fn dashed(known: &Known) -> Vec<[usize; 2]> {
    let (seen, _, parts) = parts_of(known, 0);
    let whole = |part: &&Part| parts.iter().filter(|other| other.edge == part.edge).count() == 1;
    parts.iter().filter(|part| part.hidden).filter(whole).map(|part| seen.edges[part.edge]).collect()
}

/// The walls the other way round: those that look away meet the viewer.
fn turned(faces: &[Face]) -> Vec<Face> {
    let turned = |face: &Face| Face { corners: face.corners.iter().rev().copied().collect(), ..face.clone() };
    faces.iter().map(turned).collect()
}

#[test]
fn a_box_hides_the_three_edges_of_its_far_corner() {
    let hidden = dashed(&known::a_box());
    assert_eq!(hidden, [[0, 3], [2, 3], [3, 7]]);
}

#[test]
fn an_octahedron_hides_the_four_edges_of_one_corner() {
    let hidden = dashed(&known::octahedron());
    assert_eq!(hidden.len(), 4);
    assert!((0..6).any(|corner| hidden.iter().all(|edge| edge.contains(&corner))), "{hidden:?}");
}

#[test]
fn an_edge_can_be_hidden_in_part() {
    let (_, _, parts) = parts_of(&known::frame(), 0);
    let part = |edge: usize, hidden: bool| parts.iter().any(|part| part.edge == edge && part.hidden == hidden);
    assert!((0..32).any(|edge| part(edge, true) && part(edge, false)));
}

/// The walls brought nearer, each as a whole: the edges are behind them, also those that they have themselves.
#[test]
fn a_wall_does_not_hide_its_own_edges() {
    let (seen, mut walls, _) = parts_of(&known::a_box(), 0);
    walls.iter_mut().flat_map(|wall| &mut wall.points).for_each(|point| point[2] += 1.0);
    let hidden: Vec<[usize; 2]> =
        parts(&seen, &walls).iter().filter(|part| part.hidden).map(|part| seen.edges[part.edge]).collect();
    assert_eq!(hidden, [[0, 3], [2, 3], [3, 7]]);
}

#[test]
fn the_parts_of_an_edge_make_it_up_in_turn() {
    for known in known::all() {
        let (seen, _, parts) = parts_of(&known, 0);
        for edge in 0..seen.edges.len() {
            let own: Vec<&Part> = parts.iter().filter(|part| part.edge == edge).collect();
            assert!(own.windows(2).all(|pair| pair[0].ends[1] == pair[1].ends[0] && pair[0].hidden != pair[1].hidden));
            let (ends, line) = ([own[0].ends[0], own[own.len() - 1].ends[1]], seen.line(edge));
            assert!((0..2).all(|end| length(minus(ends[end], line[end])) < 1e-9), "{ends:?} {line:?}");
        }
    }
}

/// Against all walls, also those that look away: many points of each part, none of them near a border.
#[test]
fn a_part_is_dashed_just_where_a_wall_is_before_it() {
    for known in known::all() {
        for solid in 0..known::solids(&known.1).len() {
            let (seen, mut walls, parts) = parts_of(&known, solid);
            walls.extend(seen.walls(&turned(&known::solids(&known.1)[solid].faces)));
            for (part, share) in parts.iter().flat_map(|part| (1..20).map(move |i| (part, i as f64 / 20.0))) {
                let (p, [from, to]) = (between(part.ends[0], part.ends[1], share), seen.line(part.edge));
                let near = seen.nearness(part.edge, foot(p, from, to));
                let before = |wall: &Wall| inside(p, &wall.outline()) && wall.nearness(p) > near + 1e-6;
                assert_eq!(part.hidden, walls.iter().any(before), "edge {}", part.edge);
            }
        }
    }
}
