//! The candidates: loops that cover no other loop.
use super::drawing::Drawing;
use super::flat::Flat;
use super::loops::Loop;
use super::sets::Members;

pub fn candidates(d: &Drawing, loops: &[Loop]) -> Vec<Loop> {
    let covers_none = |k: &usize| !covers_another(d, loops, *k);
    (0..loops.len()).filter(covers_none).map(|k| loops[k]).collect()
}

/// After rule 13 an edge is a side of loop a, or its midpoint is off a's border. Edges are asked for only as needed,
/// and what is known of them is kept.
fn covers_another(d: &Drawing, loops: &[Loop], k: usize) -> bool {
    let a = &loops[k];
    let mut flat = None;
    let (mut covered, mut outside) = (a.edge_set, 0u64);
    loops.iter().enumerate().any(|(m, b)| {
        if m == k || b.plane != a.plane || b.edge_set & outside != 0 {
            return false;
        }
        for e in Members(b.edge_set & !covered) {
            let flat = flat.get_or_insert_with(|| Flat::new(d, a.ring()));
            let (p, q) = d.ends(e);
            let ((px, py), (qx, qy)) = (flat.see(d.at[p]), flat.see(d.at[q]));
            if !flat.inside((px + qx, py + qy), 2) {
                outside |= 1 << e;
                return false;
            }
            covered |= 1 << e;
        }
        true
    })
}
