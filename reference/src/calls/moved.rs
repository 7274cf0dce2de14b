//! Calls with moved drawings. What each must return and leave behind is told from what the fast version says of the drawing unmoved; what
//! the clear version says of the moved one must be the same.
use super::case::{named_drawings, Case, CHECK, CHECK_SHEET, CONVERT, CONVERT_SHEET, MOST_CALLED_WORK};
use super::lent::{Lent, Rooms};
use super::stream::Stream;
use crate::check::check;
use crate::convert::{convert, Answer};
use crate::desk::Converter;
use crate::fast;
use crate::gen::change::{into_range, new_numbers, with_numbers};
use crate::gen::rng::Rng;
use crate::moves::{corresponds, ways, Converted, Move, Step, QUARTER_TURNS};
use crate::numbers::*;

/// The kinds of moves.
pub const KINDS: [&str; 9] =
    ["shift", "mirror", "renumbering", "limit", "exchange_xy", "exchange_yz", "way", "quarter_turn", "scaling"];

/// So many drawings, each moved and converted and, where vertices are moved, checked with a face list. Every second is on a sheet.
pub fn moved(kind: &str, seed: u64, count: u64) -> Vec<u8> {
    let (drawings, ways) = (named_drawings(), ways());
    let mut stream = Stream::default();
    for k in 0..count as usize {
        let mut r = Rng::of_case(seed, k as u64);
        let case = Case { turn: k / 2, drawings: &drawings };
        let moving = Moving { case, sheet: k % 2 == 1, stream: &mut stream };
        match kind {
            "renumbering" => moving.renumbered(&mut r),
            "limit" => moving.higher(&mut r),
            _ => moving.placed(&mut r, kind, &ways),
        }
    }
    stream.bytes
}

/// A limit of 0 to 8, or the highest.
fn any_limit(r: &mut Rng) -> u64 {
    if r.chance(50) {
        MOST_WORK
    } else {
        r.below(9) as u64
    }
}

fn in_range(xyz: &[i64]) -> bool {
    xyz.iter().all(|c| COORDINATE.contains(c))
}

fn by(converter: Converter, lent: &Lent, limit: u64, rooms: &Rooms) -> Converted {
    Converted::of(converter, lent.source(), limit, &rooms.faces.now, &rooms.solids.now)
}

/// By the clear version where that doesn't take too long.
fn own(lent: &Lent, limit: u64, rooms: &Rooms) -> Converted {
    let quick = by(fast::convert, lent, limit, rooms);
    match quick.answer {
        Answer::Ended { work, .. } | Answer::Report { work, .. } if work as u64 > MOST_CALLED_WORK => quick,
        _ => by(convert, lent, limit, rooms),
    }
}

struct Moving<'a> {
    case: Case<'a>,
    sheet: bool,
    stream: &'a mut Stream,
}

impl Moving<'_> {
    fn put(self, r: &mut Rng, lent: &Lent, limit: u64, rooms: Rooms, said: Converted) {
        self.stream.call(if self.sheet { CONVERT_SHEET } else { CONVERT });
        self.case.tell_converted(r, self.stream, lent, limit, rooms, said);
    }

    /// A move of this kind, if there is one for a drawing with these coordinates.
    fn any_move(&self, r: &mut Rng, kind: &str, ways: &[Vec<Step>], xyz: &[i64]) -> Option<Move> {
        if kind == "mirror" {
            return Some(Move::steps(&[Step::Mirror]));
        }
        if !in_range(xyz) {
            return None;
        }
        let turn = self.case.turn;
        Some(match kind {
            "shift" => {
                let places: Vec<_> = xyz.chunks_exact(3).map(|p| [p[0], p[1], p[2]]).collect();
                Move::Shift(into_range(r, &places)?)
            }
            "exchange_xy" => Move::steps(&[Step::ExchangeXy]),
            "exchange_yz" => Move::steps(&[Step::ExchangeYz]),
            "way" => Move::steps(&ways[turn % ways.len()]),
            "quarter_turn" => Move::steps(QUARTER_TURNS[turn % QUARTER_TURNS.len()]),
            _ => {
                let farthest = xyz.iter().map(|c| c.abs()).max().unwrap_or(0);
                let most = COORDINATE.end() / farthest.max(1);
                // A factor of 1 is no change.
                if most == 1 {
                    return None;
                }
                let any = r.range(2, most);
                Move::Scale(r.pick(&[any, most, 2]))
            }
        })
    }

    /// A drawing with a face list, its move, and the drawing moved.
    fn to_move(&self, r: &mut Rng, kind: &str, ways: &[Vec<Step>]) -> (Lent, Vec<u8>, Move, Lent) {
        loop {
            let (lent, list) = self.case.to_check(r, self.sheet);
            let Some(xyz) = lent.coordinates() else { continue };
            let Some(way) = self.any_move(r, kind, ways, &xyz) else { continue };
            if let Some(moved) = lent.moved(&way) {
                return (lent, list, way, moved);
            }
        }
    }

    fn placed(self, r: &mut Rng, kind: &str, ways: &[Vec<Step>]) {
        let (lent, list, way, moved) = self.to_move(r, kind, ways);
        let turned = way.list(&list);
        let verdict = fast::check(lent.source(), &list);
        assert!(verdict == check(moved.source(), &turned), "{way:?} changes a verdict");
        self.stream.call(if self.sheet { CHECK_SHEET } else { CHECK });
        self.case.tell_verdict(r, self.stream, &moved, &turned, verdict);

        let (limit, rooms) = (any_limit(r), Rooms::any(r));
        let said = way.converted(by(fast::convert, &lent, limit, &rooms));
        assert!(said == own(&moved, limit, &rooms), "{way:?} changes a conversion");
        self.put(r, &moved, limit, rooms, said);
    }

    fn renumbered(self, r: &mut Rng) {
        let (lent, d) = loop {
            let lent = self.case.lent(r, self.sheet);
            if let Ok(d) = lent.source().read() {
                break (lent, d);
            }
        };
        let new = new_numbers(r, d.vertices.len());
        let moved = Lent::of(&with_numbers(&d, &new), self.sheet);
        let (limit, rooms) = (any_limit(r), Rooms::any(r));
        let said = own(&moved, limit, &rooms);
        assert!(
            corresponds(&new, &by(fast::convert, &lent, limit, &rooms), &said),
            "new numbers {new:?} change a conversion"
        );
        self.put(r, &moved, limit, rooms, said);
    }

    /// A limit that isn't met, and a higher one.
    fn higher(self, r: &mut Rng) {
        let lent = self.case.lent(r, self.sheet);
        let (mut limit, rooms) = (r.below(9) as u64, Rooms::any(r));
        let mut said = by(fast::convert, &lent, limit, &rooms);
        while said.answer.number() == TOO_LONG {
            limit = 2 * limit + 1;
            said = by(fast::convert, &lent, limit, &rooms);
        }
        let any = r.range(limit as i64, MOST_WORK as i64) as u64;
        let higher = r.pick(&[limit + 1, limit.max(8), MOST_WORK, MOST_WORK, any]);
        assert!(said == own(&lent, higher, &rooms), "a limit of {higher} changes what {limit} gives");
        self.put(r, &lent, higher, rooms, said);
    }
}
