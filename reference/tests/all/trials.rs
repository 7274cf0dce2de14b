//! The trials: every answer that they are made for is met, and the same seed gives the same trial and the same calls.
use crate::common::checked;
use nibgravel_reference::calls::{calls, requests};
use nibgravel_reference::numbers::*;
use nibgravel_reference::rows::{Order, SMALL};
use nibgravel_reference::source::Source;
use nibgravel_reference::trial::{checks, geometry, sheets, walks};
use std::collections::BTreeSet;

fn met(output: &str, line: &str) -> bool {
    output.lines().any(|l| l.starts_with(line))
}

#[test]
fn sheets_meet_3_to_10_and_both_extremes() {
    let trial = sheets(&Order { seed: 11, cap: MOST_SOLIDS, size: SMALL }, 0);
    for refusal in ["3 0", "4 0", "5 0", "5 1", "6 0", "7 0", "8 0", "8 95", "9 0", "9 5", "10 1", "10 5"] {
        assert!(met(&trial.output, &format!("refused {refusal}")), "{refusal}");
    }
    let drawn: Vec<&str> = trial.output.lines().filter(|line| !line.starts_with("refused")).collect();
    assert_eq!((drawn.len(), drawn[0], drawn[1].len()), (4, "drawing 4 6", 2 * 27));
    assert_eq!((drawn[2], drawn[3].len()), ("drawing 32 64", 2 * 215));
}

#[test]
fn geometry_meets_11_to_14_clash_and_cover() {
    let trial = geometry(11, 60);
    for number in SAME_PLACE..=APART {
        assert!(met(&trial.output, &format!("refused {number} ")), "{number}");
    }
    let covers: String = trial.output.lines().filter_map(|line| line.strip_prefix("covers ")).collect();
    assert!("01".chars().all(|digit| covers.contains(digit)));
    let clashes: Vec<u64> =
        trial.output.lines().filter_map(|line| line.strip_prefix("clashes")).flat_map(numbers).collect();
    assert!(clashes.contains(&0) && clashes.iter().any(|word| *word > 0));
}

/// The numbers of a line: loops, candidates, work, and three for each solid.
fn numbers(line: &str) -> Vec<u64> {
    line.split(' ').filter_map(|word| word.parse().ok()).collect()
}

#[test]
fn walks_meet_every_end() {
    let trial = walks(11, 120);
    let mut items = 0;
    let (mut at, lines) = (0, trial.output.lines().collect::<Vec<_>>());
    let mut long = vec![];
    while at < trial.input.len() {
        let limit = trial.input[at..at + 3].iter().fold(0, |n, byte| 256 * n + *byte as u64);
        let (line, work) = (lines[items], numbers(lines[items]).get(2).copied().unwrap_or(0));
        assert!(limit <= MOST_WORK && work <= limit, "{line}");
        if line.ends_with("too long") {
            assert_eq!(work, limit);
            long.push(limit);
        }
        at += 5 + 256 * trial.input[at + 3] as usize + trial.input[at + 4] as usize;
        items += 1;
    }
    assert_eq!((at, items), (trial.input.len(), lines.len()));
    long.sort();
    long.dedup();
    assert!(long.len() > 10 && long[..2] == [0, 1], "{long:?}");
    assert!(long.contains(&190_081) && met(&trial.output, "loops 64 candidates 64 work 190082 no solid"));
    assert!(lines.iter().any(|line| line.ends_with(" many")));
    let solids = |n: usize| lines.iter().any(|line| line.matches(" solid ").count() == n);
    assert!([1, 3, 4, 6, 8].into_iter().all(solids));
}

#[test]
fn a_walk_is_told_in_a_line() {
    let trial = walks(11, 0);
    assert!(met(&trial.output, "loops 4 candidates 4 work 0 solid 15 "));
    assert!(met(&trial.output, "loops 4 candidates 4 work 0 no solid"));
    let octahedron: Vec<&str> = trial.output.lines().filter(|line| line.starts_with("loops 11 ")).collect();
    assert_eq!((octahedron.len(), octahedron[0]), (3, octahedron[1]));
    assert_eq!(octahedron[2], "loops 11 candidates 11 work 3 too long");
}

/// The items of a book.
fn items(book: &[u8]) -> Vec<&[u8]> {
    let (mut items, mut rest) = (vec![], book);
    while let [high, low, more @ ..] = rest {
        let (item, behind) = more.split_at(256 * *high as usize + *low as usize);
        items.push(item);
        rest = behind;
    }
    items
}

#[test]
fn checks_meet_each_number_at_its_first_and_last_place() {
    let trial = checks(11, 0);
    let places: [(u32, &[u32]); 22] = [
        (3, &[0]),
        (4, &[0]),
        (5, &[0, 1]),
        (6, &[0]),
        (7, &[0]),
        (8, &[0, 95]),
        (9, &[0, 5]),
        (10, &[1, 5]),
        (11, &[0, 30]),
        (12, &[0, 31]),
        (13, &[0, 29]),
        (14, &[1, 30]),
        (15, &[0]),
        (16, &[0]),
        (20, &[0]),
        (21, &[0, 41]),
        (22, &[1, 41]),
        (23, &[0, 63]),
        (24, &[0, 60]),
        (25, &[1, 38]),
        (26, &[0]),
        (27, &[0, 3]),
    ];
    let lines: BTreeSet<&str> = trial.output.lines().collect();
    for (number, places) in places {
        for place in places {
            assert!(lines.contains(format!("refused {number} {place}").as_str()), "{number} {place}");
        }
    }
    let accepted = trial.output.lines().rev().take_while(|line| *line == "accepted").count();
    assert!(accepted >= 90, "{accepted}");
}

#[test]
fn generated_checks_meet_each_number_by_both_versions() {
    let (fixed, trial) = (checks(11, 0).output.lines().count(), checks(11, 600));
    let mut met = BTreeSet::new();
    for (pair, line) in items(&trial.input).chunks(2).zip(trial.output.lines()).skip(fixed) {
        let (number, place) = checked(Source::Sheet(pair[0]), pair[1]);
        let said = if number == 0 { "accepted".to_string() } else { format!("refused {number} {place}") };
        assert_eq!(said, line);
        met.insert(number);
    }
    assert_eq!(2 * trial.output.lines().count(), items(&trial.input).len());
    let all: BTreeSet<u32> = [0].into_iter().chain(SHEET_SHORT..=MANY_CANDIDATES).chain(SHELL_SHAPE..=CLASH).collect();
    assert_eq!(met, all);
}

/// Bytes of a reply by the request's kind.
const REPLIES: [usize; 7] = [16, 952, 1_096, 56, 271, 394, 2_784];

#[test]
fn requests_meet_each_number_of_their_kind() {
    let pipe = requests(11, 400);
    let (mut input, mut output, mut met) = (&pipe.input[..], &pipe.output[..], BTreeSet::new());
    while let Some(reply) = REPLIES.get(input[0] as usize) {
        let length = |at: usize| 256 * input[at] as usize + input[at + 1] as usize;
        met.insert((input[0], output[7]));
        input = &input[13 + length(9) + length(11)..];
        output = &output[*reply..];
    }
    assert_eq!((input.len(), output.len()), (26, 0));
    let all = |kind: u8, numbers: Vec<u8>| numbers.into_iter().map(move |number| (kind, number));
    let met: Vec<_> = met.into_iter().filter(|(kind, _)| *kind > 0).collect();
    let expected = all(1, (3..=10).collect())
        .chain(all(2, (2..=19).collect()))
        .chain(all(3, (3..=16).chain(20..=27).collect()))
        .chain(all(4, vec![5, 8, 9, 10]))
        .chain(all(5, vec![20]))
        .chain((1..=6).map(|kind| (kind, 0)));
    let mut expected: Vec<_> = expected.collect();
    expected.sort();
    assert_eq!(met, expected);
}

#[test]
fn a_seed_gives_one_trial() {
    let (a, b) = (geometry(5, 10), geometry(5, 10));
    assert_eq!((a.input, a.output), (b.input, b.output));
    let (a, b) = (checks(5, 60), checks(5, 60));
    assert_eq!((a.input, a.output), (b.input, b.output));
    assert_eq!(calls(5, 140), calls(5, 140));
    let (a, b) = (requests(5, 80), requests(5, 80));
    assert_eq!((a.input, a.output), (b.input, b.output));
}
