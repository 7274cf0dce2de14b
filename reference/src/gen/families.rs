//! The families of drawings that the corpus is drawn from; counts may be out of range, which is refusal 5.
use super::crowded::*;
use super::random::raw;
use super::rng::Rng;
use super::single::*;
use crate::drawing::Drawing;

pub type Family = fn(&mut Rng) -> Drawing;

pub const FAMILIES: &[Family] = &[
    named,
    one_edge_short,
    star_prism,
    star_pyramid,
    convex_frustum,
    any_box,
    any_box_chain,
    any_frusta,
    frames,
    angular_prism,
    angular_pyramid,
    any_revolved,
    cells_skin,
    cells_straightened,
    dents,
    dented_poles,
    hexagon_bodies,
    chords,
    hollow_prisms,
    long_outlines,
    shells,
    octahedra,
    all_joined,
    most_joined,
    cells_inside,
    grids,
    plates,
    small_clean,
    large_clean,
    centred_cube,
    nested_octahedra,
    nested_prisms,
    twin_shells,
    bipyramids,
    cores,
    centred_rows,
    mirrored,
    pieces,
    glued,
    flat_nets,
    tents,
    exact_counts,
    flat_selections,
    raw,
];
