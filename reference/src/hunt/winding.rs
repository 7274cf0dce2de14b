//! What a ray meets of a closed surface: the winding number round its start, and the number of faces.
use crate::polygon::*;
use crate::vector::*;

#[derive(Clone, Copy, Debug)]
pub struct Ray {
    pub start: Point,
    pub way: Point,
}

/// How often the faces, in their directions, go round the ray's start: the signed number of faces by which the ray goes
/// out. It is counted by the triangles that the first corner of a face makes with its sides. Nothing where the start is
/// in one plane with a triangle, or with the ray and a triangle's side.
pub fn winding(faces: &[Vec<Point>], ray: Ray) -> Option<i64> {
    let mut winding = 0;
    for face in faces {
        let seen: Vec<Point> = face.iter().map(|p| sub(*p, ray.start)).collect();
        for pair in seen[1..].windows(2) {
            winding += goes_out([seen[0], pair[0], pair[1]], ray.way)?;
        }
    }
    Some(winding)
}

/// 1 or -1, as the triangle turns, where the ray from the origin meets it; 0 where it does not.
fn goes_out([a, b, c]: [Point; 3], way: Point) -> Option<i64> {
    if cross(sub(b, a), sub(c, a)) == [0; 3] {
        return Some(0);
    }
    match [det(a, b, c), det(way, b, c), det(a, way, c), det(a, b, way)].map(i128::signum) {
        [1, 1, 1, 1] => Some(1),
        [-1, -1, -1, -1] => Some(-1),
        turns => (!turns.contains(&0)).then_some(0),
    }
}

/// How many faces the ray meets, by where it pierces their planes: with no triangles and no directions. Nothing where
/// it starts in a face's plane or meets a border.
pub fn faces_met(faces: &[Vec<Point>], ray: Ray) -> Option<u64> {
    let mut met = 0;
    for face in faces {
        let (here, slope) = (height(face, ray.start), dot(normal(face), ray.way));
        if here == 0 {
            return None;
        }
        if here.signum() * slope.signum() != -1 {
            continue;
        }
        let (numerator, denominator) = piercing_point((ray.start, here), (add(ray.start, ray.way), here + slope));
        match lies(face, numerator, denominator) {
            Lies::Inside => met += 1,
            Lies::Border => return None,
            Lies::Outside => {}
        }
    }
    Some(met)
}
