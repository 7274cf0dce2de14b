//! Named drawings: those of document 01, and others that are large, ambiguous or much work.
use super::ambiguous::*;
use super::bodies::*;
use super::flat::round;
use super::known::*;
use super::maker::complete;
use crate::drawing::Drawing;

type Named = (&'static str, Drawing);

pub fn named() -> Vec<Named> {
    [of_the_document(), bodies(), ambiguous()].concat()
}

fn of_the_document() -> Vec<Named> {
    vec![
        ("tetrahedron", tetrahedron()),
        ("cube", cube()),
        ("cube_without_edge", cube_without(0)),
        ("octahedron", octahedron()),
        ("nested_cubes", nested_cubes()),
        ("triangle_with_centre", triangle_with_centre()),
        ("two_tetrahedra", two_tetrahedra()),
        ("notched_pentagon", notched_pentagon()),
    ]
}

fn bodies() -> Vec<Named> {
    vec![
        ("dent_above", dented([5, 4, 1])),
        ("dent_touching", dented([5, 4, 0])),
        ("dent_through", dented([5, 4, -1])),
        ("box_chain", box_chain(&[10; 7], 10, 10)),
        ("frusta_chain", frusta(&[5, 7, 4, 9, 6, 8, 3, 5].map(|size| (size, 0)))),
        ("octahedron_chain", octahedron_chain(5)),
        ("three_nested_boxes", nested_boxes(&[([-30; 3], [30; 3]), ([-20; 3], [20; 3]), ([-10; 3], [10; 3])])),
        ("hexagon_body", revolved(6, &[(2, 0), (2, 3)], Some((-2, 5)))),
        ("frame", frame(&round(8), 3, 9, 0)),
        ("grid", grid(3, 3, 2)),
        ("plate", plate(4, 4, true)),
    ]
}

fn ambiguous() -> Vec<Named> {
    let (six, seven) = (complete(&general(6)), complete(&general(7)));
    vec![
        ("no_volume", no_volume()),
        ("centred_bipyramid", centred_bipyramid(4, 1)),
        ("cored_hexagon", cored(6, &[(1, 0)])),
        ("centred_cubes_1", centred_cubes(1)),
        ("centred_cubes_2", centred_cubes(2)),
        ("centred_frusta", centred_frusta(&[3, 5, 4, 6])),
        ("mirrored_octahedra", mirrored_octahedra(true)),
        ("mirrored_octahedra_one_centre", mirrored_octahedra(false)),
        ("loops_128", exact_count(10, false)),
        ("loops_129", exact_count(10, true)),
        ("candidates_64", exact_count(8, false)),
        ("candidates_65", exact_count(8, true)),
        ("couples", couples(4)),
        ("couples_and_top", couples_and_top()),
        ("complete_8", complete(&general(8))),
        ("complete_9", complete(&general(9))),
        ("complete_11", complete(&general(11))),
        ("three_complete_6", at_one_vertex(&[six.clone(), six.clone(), six.clone()])),
        ("complete_6_and_7", at_one_vertex(&[six, seven])),
        ("most_work", most_work()),
    ]
}
