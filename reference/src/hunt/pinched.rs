//! Whether a solid is pinched at a vertex: document 01 allows it.
use crate::drawing::Loop;

/// Of faces with two at every edge: is there a vertex round which they make more than one ring?
pub fn pinched(faces: &[Loop], vertices: usize) -> bool {
    (0..vertices).any(|v| pinched_at(faces, v))
}

fn pinched_at(faces: &[Loop], v: usize) -> bool {
    // Faces with a common neighbour of the vertex have a common edge there.
    let mut apart: Vec<[usize; 2]> = faces.iter().filter_map(|face| neighbours(face, v)).collect();
    let mut reached: Vec<usize> = apart.pop().into_iter().flatten().collect();
    while let Some(k) = apart.iter().position(|ends| ends.iter().any(|end| reached.contains(end))) {
        reached.extend(apart.swap_remove(k));
    }
    !apart.is_empty()
}

/// The corners of a face before and after one of them.
fn neighbours(face: &Loop, v: usize) -> Option<[usize; 2]> {
    let (k, corners) = (face.iter().position(|corner| *corner == v)?, face.len());
    Some([face[(k + corners - 1) % corners], face[(k + 1) % corners]])
}
