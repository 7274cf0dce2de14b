//! Clear against fast on generated and damaged sheets, lists and rooms: 24,000 sheets in all.
use crate::common::*;
use nibgravel_reference::convert::convert_most;
use nibgravel_reference::fast;
use nibgravel_reference::gen::families::FAMILIES;
use nibgravel_reference::gen::lists::any_list;
use nibgravel_reference::gen::rng::Rng;
use nibgravel_reference::gen::sheets::{any_lists, any_sheet, changed, counted_drawing};
use nibgravel_reference::numbers::*;
use nibgravel_reference::sheet::{pack_sheet, read_sheet, write_sheet};
use nibgravel_reference::source::Source;
use std::collections::BTreeSet;

const SHEETS_PER_SEED: u64 = 6_000;

/// Both versions on one seed's sheets; the numbers met by conversions and checks.
fn agree(seed: u64) -> BTreeSet<u32> {
    let mut met = BTreeSet::new();
    for case in 0..SHEETS_PER_SEED {
        let mut r = Rng::of_case(seed, case);
        let sheet = any_sheet(&mut r);
        let limit = r.pick(&[0, 1, 3, 4, 10, 500, 5_000, 1_000_001]);
        let rooms = if r.chance(90) { (832, 24) } else { r.pick(&[(831, 24), (832, 23), (0, 0), (900, 30)]) };
        met.insert(refusal(both(Source::Sheet(&sheet), limit, rooms).answer).0);
        let list = any_list(&mut r, Source::Sheet(&sheet));
        met.insert(checked(Source::Sheet(&sheet), &list).0);
        if let Ok(d) = read_sheet(&sheet) {
            assert_eq!(pack_sheet(&d), sheet, "one sheet per drawing");
            let (xyz, ends) = any_lists(&mut r, &d);
            both(Source::Lists(&xyz, &ends), limit, (832, 24));
            let mut room = [1; 215];
            if let Ok(length) = write_sheet(&xyz, &ends, &mut room) {
                assert_eq!(read_sheet(&room[..length]).unwrap().lists(), (xyz, ends));
            }
        }
    }
    met
}

#[test]
fn seed_1() {
    let all: BTreeSet<u32> = (0..=CLASH).collect();
    assert_eq!(agree(1), all, "every number is met");
}

#[test]
fn seed_2() {
    agree(2);
}

#[test]
fn seed_3() {
    agree(3);
}

#[test]
fn seed_4() {
    agree(4);
}

#[test]
fn every_family() {
    let mut r = Rng::new(5);
    for family in FAMILIES {
        for _ in 0..40 {
            let (xyz, ends) = family(&mut r).lists();
            both(Source::Lists(&xyz, &ends), 3_000, (832, 24));
        }
    }
}

#[test]
fn lower_caps() {
    for case in 0..1_500 {
        let mut r = Rng::of_case(8, case);
        let d = counted_drawing(&mut r, 16);
        let (xyz, ends) = changed(&mut r, d).lists();
        let (most, source) = (r.count(1, 8), Source::Lists(&xyz, &ends));
        let rooms = || ([0xa5; FACE_ROOM], [0xa5; SOLID_ROOM]);
        let (mut clear, mut quick) = (rooms(), rooms());
        let limits = Limits { solids: most, ..DOCUMENTED };
        let answer = convert_most(limits, source, 500, &mut clear.0, &mut clear.1);
        assert_eq!(answer, fast::convert_most(most, source, 500, &mut quick.0, &mut quick.1));
        assert_eq!(clear, quick);
    }
}
