//! Drawings, sheets and face lists to try: known ones, families, damaged ones; all from seeded numbers, and, packing
//! apart, without the clear version, so that a fault there can't change the cases it is tried on.
pub mod ambiguous;
pub mod bodies;
pub mod cells;
pub mod change;
pub mod crowded;
pub mod damage;
pub mod extreme_lists;
pub mod extremes;
pub mod families;
pub mod flat;
pub mod growing;
pub mod known;
pub mod limits;
pub mod lists;
pub mod maker;
pub mod named;
pub mod pairs;
pub mod random;
pub mod rng;
pub mod scenes;
pub mod sheets;
pub mod single;
