//! The loop search: depth first in ascending order, so that loops come in order and in normal form.
use super::drawing::{Drawing, Point, VERTEX_ROOM};
use super::sets::{first, Members};
use crate::numbers::*;
use crate::vector::{cross, dot, sub};

pub const LONGEST: usize = *CORNERS.end();

/// Per pair of vertices the number of their edge.
pub type EdgeNumbers = [[u8; VERTEX_ROOM]; VERTEX_ROOM];
pub const NO_EDGE: u8 = 255;

#[derive(Clone, Copy)]
pub struct Loop {
    pub corners: usize,
    /// The normal form, with 255 as fill.
    pub ring: [u8; LONGEST],
    pub corner_set: u32,
    pub edge_set: u64,
    /// All vertices in its plane: two loops are in one plane exactly where these sets are equal.
    pub plane: u32,
}

impl Loop {
    #[inline]
    pub fn ring(&self) -> &[u8] {
        &self.ring[..self.corners]
    }
}

/// The loops in order; nothing where there are more than 128.
pub fn find_loops(d: &Drawing) -> Option<Vec<Loop>> {
    let mut search =
        Search { d, edge: d.edge_numbers(), found: Vec::with_capacity(MOST_LOOPS), path: [0; LONGEST], closing: 0 };
    for start in 0..d.vertices {
        // A loop starts at its lowest vertex and ends at the higher of that one's two neighbours.
        let above = !(first(start + 1) as u32);
        search.path[0] = start as u8;
        let mut later = d.near[start] & above;
        while later != 0 {
            let second = later.trailing_zeros();
            later &= later - 1;
            search.closing = later;
            search.path[1] = second as u8;
            search.along_line(2, above & !(1 << second))?;
        }
    }
    Some(search.found)
}

impl Drawing {
    pub fn edge_numbers(&self) -> EdgeNumbers {
        let mut number = [[NO_EDGE; VERTEX_ROOM]; VERTEX_ROOM];
        for e in 0..self.edges {
            let (a, b) = self.ends(e);
            number[a][b] = e as u8;
            number[b][a] = e as u8;
        }
        number
    }

    /// All vertices in the plane through a vertex with this normal.
    fn plane(&self, through: usize, normal: Point) -> u32 {
        let height = dot(normal, self.at[through]);
        let vertices = self.at[..self.vertices].iter().enumerate();
        vertices.fold(0, |plane, (v, at)| plane | ((dot(normal, *at) == height) as u32) << v)
    }

    /// The set without the vertices that have under two neighbours in it, again and again: no loop passes them.
    fn core(&self, mut set: u32) -> u32 {
        loop {
            let before = set;
            for v in Members(before as u64) {
                if (self.near[v] & set).count_ones() < 2 {
                    set &= !(1 << v);
                }
            }
            if set == before {
                return set;
            }
        }
    }
}

struct Search<'a> {
    d: &'a Drawing,
    edge: EdgeNumbers,
    found: Vec<Loop>,
    path: [u8; LONGEST],
    /// The neighbours of the start at which a loop may end.
    closing: u32,
}

impl Search<'_> {
    /// Goes on from a path that lies on one line; `free` are the vertices it may still use.
    fn along_line(&mut self, length: usize, free: u32) -> Option<()> {
        let (start, last) = (self.path[0] as usize, self.path[length - 1] as usize);
        if length == LONGEST || self.closing & free == 0 {
            return Some(());
        }
        let way = sub(self.d.at[last], self.d.at[start]);
        for next in Members((self.d.near[last] & free) as u64) {
            self.path[length] = next as u8;
            let free = free & !(1 << next);
            let normal = cross(way, sub(self.d.at[next], self.d.at[start]));
            if normal == [0; 3] {
                self.along_line(length + 1, free)?;
                continue;
            }
            let used = self.path[..=length].iter().fold(0, |used, v| used | 1 << v);
            let plane = self.d.plane(start, normal);
            let core = self.d.core(plane & (free | used));
            if used & !core == 0 && self.closing & core != 0 {
                self.in_plane(length + 1, core & free, plane)?;
            }
        }
        Some(())
    }

    /// Goes on from a path that fixes its plane; `free` are the vertices of the plane it may still use.
    fn in_plane(&mut self, length: usize, free: u32, plane: u32) -> Option<()> {
        let last = self.path[length - 1] as usize;
        if self.closing >> last & 1 == 1 {
            self.close(length, plane)?;
        }
        if length == LONGEST || self.closing & free == 0 {
            return Some(());
        }
        for next in Members((self.d.near[last] & free) as u64) {
            self.path[length] = next as u8;
            self.in_plane(length + 1, free & !(1 << next), plane)?;
        }
        Some(())
    }

    fn close(&mut self, corners: usize, plane: u32) -> Option<()> {
        if self.found.len() == MOST_LOOPS {
            return None;
        }
        let mut l = Loop { corners, ring: self.path, corner_set: 0, edge_set: 0, plane };
        l.ring[corners..].fill(FACE_FILL);
        let mut before = self.path[corners - 1];
        for v in &self.path[..corners] {
            l.corner_set |= 1 << v;
            l.edge_set |= 1 << self.edge[before as usize][*v as usize];
            before = *v;
        }
        self.found.push(l);
        Some(())
    }
}
