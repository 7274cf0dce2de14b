//! Families of several bodies, of bodies in bodies, of nets and of random edges.
use super::ambiguous::*;
use super::bodies::*;
use super::cells::*;
use super::change::{drop_loose, edited};
use super::flat::*;
use super::known::*;
use super::maker::*;
use super::random::*;
use super::rng::Rng;
use crate::drawing::Drawing;
use crate::vector::sub;

pub fn shells(r: &mut Rng) -> Drawing {
    let (outer, inner) = (r.range(5, 12), r.range(1, 4));
    let shift = [0; 3].map(|_| r.range(-1, 1));
    let around = |k: i64| ([-k * outer; 3], [k * outer; 3]);
    let mut boxes = vec![around(1), (shift.map(|s| s - inner), shift.map(|s| s + inner))];
    if r.chance(40) {
        boxes.insert(0, around(2));
    }
    if r.chance(20) {
        boxes.insert(0, around(3));
    }
    nested_boxes(&boxes)
}

pub fn octahedra(r: &mut Rng) -> Drawing {
    octahedron_chain(r.range(1, 5))
}

pub fn all_joined(r: &mut Rng) -> Drawing {
    let count = r.count(4, 11);
    complete(&places(r, count, 50))
}

pub fn most_joined(r: &mut Rng) -> Drawing {
    let (count, percent) = (r.count(5, 9), r.count(40, 95));
    let mut d = complete(&places(r, count, 30));
    d.edges.retain(|_| r.chance(percent));
    drop_loose(&d)
}

pub fn cells_inside(r: &mut Rng) -> Drawing {
    let count = r.count(1, 6);
    all_edges(&random_cells(r, count))
}

pub fn grids(r: &mut Rng) -> Drawing {
    grid(r.range(2, 3), r.range(2, 4), r.range(2, 3))
}

pub fn plates(r: &mut Rng) -> Drawing {
    plate(r.range(2, 5), r.range(2, 6), r.chance(60))
}

pub fn small_clean(r: &mut Rng) -> Drawing {
    let (count, edges) = (r.count(4, 10), r.count(6, 30));
    let places = lattice(r, count, [2; 3]);
    clean(r, places, edges)
}

pub fn large_clean(r: &mut Rng) -> Drawing {
    let (count, edges, size) = (r.count(5, 16), r.count(9, 50), r.range(2, 4));
    let places = lattice(r, count, [size; 3]);
    clean(r, places, edges)
}

pub fn centred_cube(r: &mut Rng) -> Drawing {
    let cube = box_of([-4; 3], [4; 3]);
    let joined: Vec<Place> = cube.vertices.iter().copied().filter(|_| r.chance(90)).collect();
    let mut m = Maker::default();
    m.drawing(&cube, [0; 3]);
    m.fan([0; 3].map(|_| r.range(-1, 1)), &joined);
    m.done()
}

/// Octahedra one in the other, joined, and some corners of the smallest joined to the centre.
pub fn nested_octahedra(r: &mut Rng) -> Drawing {
    let mut m = Maker::default();
    let shells: Vec<Drawing> = (1..=r.range(1, 3)).map(octahedron_of).collect();
    shells.iter().for_each(|d| m.drawing(d, [0; 3]));
    shells.windows(2).for_each(|pair| m.join(&pair[0].vertices, &pair[1].vertices));
    let joined: Vec<Place> = shells[0].vertices.iter().copied().filter(|_| r.chance(50)).collect();
    m.fan([0; 3], &joined);
    m.done()
}

pub fn nested_prisms(r: &mut Rng) -> Drawing {
    let corners = r.count(3, 4);
    let base = star(r, corners, 4);
    let mut m = Maker::default();
    let shells: Vec<[Vec<Place>; 2]> =
        (1..=r.range(2, 4)).map(|k| [lift(&base, -k, k, [0, 0]), lift(&base, k, k, [0, 0])]).collect();
    shells.iter().for_each(|shell| m.layers(shell));
    for pair in shells.windows(2) {
        m.join(&pair[0][0], &pair[1][0]);
        m.join(&pair[0][1], &pair[1][1]);
    }
    m.done()
}

/// A box in a box, or two of them that share a wall.
pub fn twin_shells(r: &mut Rng) -> Drawing {
    let one = nested_boxes(&[([0; 3], [8; 3]), ([2; 3], [6; 3])]);
    let mut m = Maker::default();
    (0..r.range(1, 2)).for_each(|k| m.drawing(&one, [8 * k, 0, 0]));
    m.done()
}

pub fn bipyramids(r: &mut Rng) -> Drawing {
    centred_bipyramid(r.pick(&[3, 4, 4, 5, 6, 6, 8]), r.pick(&[1, 1, 1, 2]))
}

pub fn cores(r: &mut Rng) -> Drawing {
    let rings: Vec<(i64, i64)> = (0..r.range(1, 3)).map(|k| (r.range(1, 3), k)).collect();
    cored(r.pick(&[3, 4, 4, 5, 6]), &rings)
}

pub fn centred_rows(r: &mut Rng) -> Drawing {
    if r.chance(40) {
        return centred_cubes(r.range(1, 3));
    }
    let sizes: Vec<i64> = (0..r.range(2, 4)).map(|k| 3 + 2 * k % 3 + r.range(0, 1)).collect();
    centred_frusta(&sizes)
}

pub fn mirrored(r: &mut Rng) -> Drawing {
    mirrored_octahedra(r.chance(70))
}

pub fn pieces(r: &mut Rng) -> Drawing {
    let piece = |r: &mut Rng| match r.below(6) {
        0 => octahedron(),
        1 => centred_bipyramid(4, 1),
        2 => complete(&general(6)),
        3 => centred_cubes(1),
        4 => tetrahedron(),
        _ => couples(3),
    };
    let all: Vec<Drawing> = (0..r.count(2, 3)).map(|_| piece(r)).collect();
    at_one_vertex(&all)
}

/// Two bodies that share a vertex, or more by chance, or are apart.
pub fn glued(r: &mut Rng) -> Drawing {
    let bodies = [tetrahedron, cube, octahedron];
    let (one, two) = (r.pick(&bodies)(), r.pick(&bodies)());
    let shift = sub(r.pick(&one.vertices), r.pick(&two.vertices));
    let mut m = Maker::default();
    m.drawing(&one, [0; 3]);
    m.drawing(&two, if r.chance(70) { shift } else { [50, 60, 70] });
    m.done()
}

pub fn flat_nets(r: &mut Rng) -> Drawing {
    flat_net(r, 64)
}

/// A net with one or two points that are joined to all of it.
pub fn tents(r: &mut Rng) -> Drawing {
    let edges = r.count(4, 12);
    let net = flat_net(r, edges);
    let mut m = Maker::default();
    m.drawing(&net, [0; 3]);
    let tops = [[r.range(-1, 4), r.range(-1, 4), 3], [1, 2, -4]];
    tops[..r.count(1, 2)].iter().for_each(|top| m.fan(*top, &net.vertices));
    m.done()
}

/// Just as many loops or candidates as are allowed, or one more.
pub fn exact_counts(r: &mut Rng) -> Drawing {
    exact_count(r.pick(&[8, 10]), r.chance(50))
}

/// A selection without volume among others.
pub fn flat_selections(r: &mut Rng) -> Drawing {
    let d = no_volume();
    if r.chance(70) {
        d
    } else {
        edited(r, &d)
    }
}
