//! The drawings that document 01 names.
#![allow(dead_code)] // each test file uses some of them
use nibgravel::{write_faces, Drawing, Error};
use nibgravel_numbers::{FILL, ROW};

pub fn tetrahedron() -> Drawing {
    complete(&[[0, 0, 0], [6, 0, 0], [0, 6, 0], [0, 0, 6]])
}

/// The tetrahedron with all signs changed.
pub fn image() -> Drawing {
    complete(&[[0, 0, 0], [-6, 0, 0], [0, -6, 0], [0, 0, -6]])
}

/// Both of them, which share vertex 0.
pub fn two_tetrahedra() -> Drawing {
    let vertices = [[0, 0, 0], [6, 0, 0], [0, 6, 0], [0, 0, 6], [-6, 0, 0], [0, -6, 0], [0, 0, -6]];
    Drawing::new(&vertices, &pairs(7, |a, b| a == 0 || (a <= 3) == (b <= 3)))
}

pub fn triangle_with_centre() -> Drawing {
    complete(&[[0, 0, 0], [9, 0, 0], [0, 9, 0], [3, 3, 0]])
}

/// Corner k has the upper x, y or z where bit 0, 1 or 2 of k is set.
pub fn cube() -> Drawing {
    Drawing::new(&corners(0, 10), &pairs(8, |a, b| (a ^ b).count_ones() == 1))
}

/// The square at the bottom divided in two triangles.
pub fn cube_with_diagonal() -> Drawing {
    Drawing::new(&corners(0, 10), &pairs(8, |a, b| (a ^ b).count_ones() == 1 || (a, b) == (0, 3)))
}

pub fn cube_without(edge: usize) -> Drawing {
    let mut cube = cube();
    cube.ends.drain(2 * edge..2 * edge + 2);
    cube
}

/// A cube round a cube, like corners joined.
pub fn nested_cubes() -> Drawing {
    let vertices = [corners(-20, 20), corners(-10, 10)].concat();
    Drawing::new(&vertices, &pairs(16, |a, b| (a ^ b).count_ones() == 1))
}

pub fn octahedron() -> Drawing {
    let vertices = [[10, 0, 0], [-10, 0, 0], [0, 10, 0], [0, -10, 0], [0, 0, 10], [0, 0, -10]];
    Drawing::new(&vertices, &pairs(6, |a, b| a / 2 != b / 2))
}

/// A drawing of so many vertices that a sheet can have.
pub fn chain(vertices: u8) -> Drawing {
    let places: Vec<[i64; 3]> = (0..vertices as i64).map(|k| [k, k * k, 0]).collect();
    Drawing::new(&places, &pairs(vertices, |a, b| a + 1 == b))
}

fn complete(vertices: &[[i64; 3]]) -> Drawing {
    Drawing::new(vertices, &pairs(vertices.len() as u8, |_, _| true))
}

fn corners(low: i64, high: i64) -> Vec<[i64; 3]> {
    (0..8).map(|k| [0, 1, 2].map(|axis| if k >> axis & 1 == 1 { high } else { low })).collect()
}

/// The pairs of rising numbers that are joined, in order.
fn pairs(count: u8, joined: impl Fn(u8, u8) -> bool) -> Vec<[u8; 2]> {
    let all = (0..count).flat_map(|a| (a + 1..count).map(move |b| [a, b]));
    all.filter(|[a, b]| joined(*a, *b)).collect()
}

/// Faces, each in the direction of its corners, as a face list for a drawing.
pub fn face_list(drawing: &Drawing, faces: &[Vec<u8>]) -> Result<Vec<u8>, Error> {
    let mut rows = vec![FILL; ROW * faces.len()];
    for (row, face) in rows.chunks_mut(ROW).zip(faces) {
        row[0] = face.len() as u8;
        row[1..=face.len()].copy_from_slice(face);
    }
    write_faces(&rows, &[(1 << faces.len()) - 1], drawing.xyz.len() / 3, drawing.ends.len() / 2)
}

/// The faces of a drawing's only solid, each in the direction in which it is run.
pub fn faces_of(drawing: &Drawing) -> Vec<Vec<u8>> {
    let report = drawing.convert(nibgravel::MOST_WORK).expect("a report");
    assert_eq!(report.solids().len(), 1);
    let solid = report.solids().next().expect("a solid");
    solid.faces().map(|face| face.corners().collect()).collect()
}
