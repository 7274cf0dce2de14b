//! Which candidates clash, from three tables per candidate.
use super::drawing::{Drawing, VERTEX_ROOM};
use super::flat::Flat;
use super::loops::Loop;
use super::sets::Members;

/// What one candidate's inside meets.
struct Inside {
    /// Edges that pierce it.
    pierced: u64,
    /// Vertices strictly inside it.
    vertices: u32,
    /// Per corner u the corners v for which u to v points strictly inside the angle at u.
    across: [u32; VERTEX_ROOM],
}

/// Per candidate the set of those it clashes with.
pub fn clashes(d: &Drawing, candidates: &[Loop]) -> Vec<u64> {
    let inside: Vec<Inside> = candidates.iter().map(|c| Inside::new(d, c)).collect();
    let mut clashes = vec![0; candidates.len()];
    for (i, f) in candidates.iter().enumerate() {
        for (j, g) in candidates.iter().enumerate().skip(i + 1) {
            if inside[i].hit_by(g)
                || inside[j].hit_by(f)
                || (f.plane != g.plane && rule_c(f, &inside[i], g, &inside[j]))
            {
                clashes[i] |= 1 << j;
                clashes[j] |= 1 << i;
            }
        }
    }
    clashes
}

fn rule_c(f: &Loop, in_f: &Inside, g: &Loop, in_g: &Inside) -> bool {
    // Of a triangle's corners none is across the inside.
    f.corners > 3
        && g.corners > 3
        && Members((f.corner_set & g.corner_set) as u64).any(|u| in_f.across[u] & in_g.across[u] != 0)
}

impl Inside {
    fn new(d: &Drawing, c: &Loop) -> Inside {
        let flat = Flat::new(d, c.ring());
        let mut inside = Inside { pierced: 0, vertices: 0, across: [0; VERTEX_ROOM] };
        let mut height = [0; VERTEX_ROOM];
        for (h, at) in height.iter_mut().zip(&d.at[..d.vertices]) {
            *h = flat.height(*at);
        }
        for e in 0..d.edges {
            let (p, q) = d.ends(e);
            if height[p].signum() * height[q].signum() == -1 && pierces(d, &flat, (p, height[p]), (q, height[q])) {
                inside.pierced |= 1 << e;
            }
        }
        for v in Members((c.plane & !c.corner_set) as u64) {
            inside.vertices |= (flat.inside(flat.see(d.at[v]), 1) as u32) << v;
        }
        if c.corners > 3 {
            for (k, u) in c.ring().iter().enumerate() {
                let across = (0..c.corners).filter(|m| *m != k && flat.inside_angle(k, *m));
                inside.across[*u as usize] = across.fold(0, |set, m| set | 1 << c.ring[m]);
            }
        }
        inside
    }

    /// Rules A and B, one way round.
    #[inline]
    fn hit_by(&self, f: &Loop) -> bool {
        self.pierced & f.edge_set != 0 || self.vertices & f.corner_set != 0
    }
}

/// Does the edge from p to q, whose ends are on opposite sides, pierce the loop inside? The piercing point is
/// (hq p - hp q) / (hq - hp); after rule 13 it isn't on the border.
fn pierces(d: &Drawing, flat: &Flat, (p, hp): (usize, i64), (q, hq): (usize, i64)) -> bool {
    let ((px, py), (qx, qy)) = (flat.see(d.at[p]), flat.see(d.at[q]));
    let sign = (hq - hp).signum();
    let (hp, hq) = (sign * hp, sign * hq);
    flat.inside((hq * px - hp * qx, hq * py - hp * qy), hq - hp)
}
