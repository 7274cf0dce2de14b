//! The drawings that document 01 names.
use super::maker::*;
use crate::drawing::Drawing;

pub fn tetrahedron() -> Drawing {
    complete(&[[0, 0, 0], [6, 0, 0], [0, 6, 0], [0, 0, 6]])
}

/// A box; corner k has the upper x, y or z where bit 0, 1 or 2 of k is set.
pub fn box_of(low: Place, high: Place) -> Drawing {
    let corner = |k: usize| std::array::from_fn(|axis| if k >> axis & 1 == 1 { high[axis] } else { low[axis] });
    ordered((0..8).map(corner).collect(), pairs(8, |a, b| (a ^ b).count_ones() == 1))
}

pub fn cube() -> Drawing {
    box_of([0; 3], [10; 3])
}

pub fn cube_without(edge: usize) -> Drawing {
    let mut d = cube();
    d.edges.remove(edge);
    d
}

/// +x -x +y -y +z -z, all joined but opposite ones.
pub fn octahedron_of(size: i64) -> Drawing {
    let s = size;
    all_but_couples(&[[s, 0, 0], [-s, 0, 0], [0, s, 0], [0, -s, 0], [0, 0, s], [0, 0, -s]])
}

pub fn octahedron() -> Drawing {
    octahedron_of(10)
}

pub fn nested_cubes() -> Drawing {
    nested_boxes(&[([-20; 3], [20; 3]), ([-10; 3], [10; 3])])
}

/// Boxes of which each is joined, like corner to like, to the next.
pub fn nested_boxes(boxes: &[(Place, Place)]) -> Drawing {
    let (mut vertices, mut edges) = (vec![], vec![]);
    for (k, (low, high)) in boxes.iter().enumerate() {
        let one = box_of(*low, *high);
        vertices.extend(one.vertices);
        edges.extend(one.edges.iter().map(|(a, b)| (a + 8 * k, b + 8 * k)));
        if k > 0 {
            edges.extend((8 * k..8 * k + 8).map(|v| (v - 8, v)));
        }
    }
    ordered(vertices, edges)
}

pub fn triangle_with_centre() -> Drawing {
    complete(&[[0, 0, 0], [9, 0, 0], [0, 9, 0], [3, 3, 0]])
}

/// The tetrahedron and its image with all signs changed.
pub fn two_tetrahedra() -> Drawing {
    let one = tetrahedron();
    let image = Drawing { vertices: one.vertices.iter().map(|p| p.map(|c| -c)).collect(), edges: one.edges.clone() };
    let mut m = Maker::default();
    m.drawing(&one, [0; 3]);
    m.drawing(&image, [0; 3]);
    m.done()
}

/// The notched pentagon with its chord, and a point over it that makes one drawing of them.
pub fn notched_pentagon() -> Drawing {
    let outline = [[0, 0, 0], [4, 0, 0], [4, 4, 0], [2, 2, 0], [0, 4, 0]];
    let mut m = Maker::default();
    m.ring(&outline);
    m.line(outline[2], outline[4]);
    m.fan([2, 1, 7], &outline);
    m.done()
}
