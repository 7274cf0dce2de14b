//! All solids by trying every set of candidates and every choice of directions, with no walk.
use crate::solids::{Solid, Table};

/// For small candidate counts; the sets come in the order of their bits.
pub fn all_solids(table: &Table) -> Vec<Solid> {
    let edges: Vec<u32> = table.on_edge.iter().map(|on| on.iter().fold(0, |set, c| set | 1 << c)).collect();
    let sets = 0u32..1 << table.candidates.len();
    sets.filter(|set| edges.iter().all(|on| (on & set).count_ones() == 2))
        .filter_map(|set| solid(table, &edges, set))
        .collect()
}

fn solid(table: &Table, edges: &[u32], set: u32) -> Option<Solid> {
    let taken: Vec<usize> = (0..table.candidates.len()).filter(|c| set >> c & 1 == 1).collect();
    if !joined(edges, set) || table.any_clash(&taken) {
        return None;
    }
    let choices = 0u64..1 << taken.len();
    let turned = |choice: u64| (0..taken.len()).map(|k| choice >> k & 1 == 1).collect::<Vec<bool>>();
    let good: Vec<Vec<bool>> = choices.map(turned).filter(|t| table.one_each_way(&taken, t)).collect();
    let turned = good.into_iter().find(|t| table.six_volumes(&taken, t) > 0)?;
    let six_volumes = table.six_volumes(&taken, &turned);
    Some(Solid { taken, turned, six_volumes })
}

/// (ii): a face of the set, and what shares an edge with it, and so on, is the whole set.
fn joined(edges: &[u32], set: u32) -> bool {
    let mut reached = set & set.wrapping_neg();
    for _ in 0..set.count_ones() {
        for on in edges {
            if on & set & reached != 0 {
                reached |= on & set;
            }
        }
    }
    reached == set
}
