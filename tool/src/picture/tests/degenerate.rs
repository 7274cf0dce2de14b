//! Drawings without extent, which rules 11 to 14 refuse, and answers that don't fit: a picture all the same.
use super::known::refused;
use super::xml;
use crate::model::{Conversion, Drawing, Face, Search, Solid};
use crate::picture::{picture, small};
use nibgravel_numbers::{Number, VERTICES};

fn is_fine(drawing: &Drawing, conversion: &Conversion) {
    for svg in [picture(drawing, conversion), small(drawing, conversion)] {
        xml::texts(&svg);
        assert!(!svg.contains("NaN") && !svg.contains("inf"), "{svg}");
    }
}

fn drawings() -> Vec<Drawing> {
    let edges = vec![[0, 1], [0, 2], [0, 3], [1, 2], [1, 3], [2, 3]];
    let sets = [
        vec![[7, 8, 9]; 4],
        vec![[0, 0, 0], [1, 2, 3], [2, 4, 6], [-1000, -1000, -1000]],
        vec![[0, 0, 0], [0, 0, 1], [0, 0, 2], [0, 0, 3]],
        // along one of the directions from which drawings are seen
        vec![[0, 0, 0], [29, -53, 31], [58, -106, 62], [87, -159, 93]],
        vec![[0, 0, 5], [9, 0, 5], [0, 9, 5], [3, 3, 5]],
        vec![[-1000, -1000, -1000], [1000, 1000, 1000], [1000, -1000, 1000], [1000, 1000, 999]],
    ];
    let mut drawings: Vec<Drawing> =
        sets.into_iter().map(|vertices| Drawing { vertices, edges: edges.clone() }).collect();
    drawings.push(Drawing { vertices: vec![[1, 2, 3]; *VERTICES.end()], edges: vec![] });
    drawings.push(Drawing { vertices: vec![], edges: vec![] });
    drawings
}

#[test]
fn drawings_without_extent_have_pictures() {
    for drawing in drawings() {
        for number in Number::all() {
            for place in [0, 1, 3, 31, 63, u64::MAX] {
                is_fine(&drawing, &refused(drawing.clone(), number, place).1);
            }
        }
    }
}

#[test]
fn walls_without_extent_have_pictures() {
    let search = Search { loops: 0, candidates: 0, work: 0 };
    let flat = |corners: &[usize]| Face { candidate: 70, turned: false, corners: corners.to_vec() };
    let faces = vec![flat(&[0, 1, 2]), flat(&[2, 1, 0]), flat(&[0, 1, 3, 2]), flat(&[3, 1, 2]), flat(&[])];
    let solid = Solid { taken: 15, turned: 0, six: 0, faces };
    for drawing in drawings().into_iter().filter(|drawing| drawing.edges.len() == 6) {
        for count in [0, 1, 2, 8] {
            let solids = vec![solid.clone(); count];
            is_fine(&drawing, &Conversion::Report { search, candidates: vec![], solids });
        }
    }
}
