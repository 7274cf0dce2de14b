//! What stands in the pictures.
use super::known::{self, Known};
use super::xml;
use crate::model::{Conversion, Drawing, Search};
use crate::picture::escape::escape;
use crate::picture::svg::{Letters, Svg};
use crate::picture::{picture, small};
use nibgravel_numbers::{Number, ENDED};

fn both((drawing, conversion): &Known) -> [String; 2] {
    [picture(drawing, conversion), small(drawing, conversion)]
}

fn count(text: &str, what: &str) -> usize {
    text.matches(what).count()
}

/// The box with changes that rules 11 to 14 refuse.
fn refused() -> [Known; 4] {
    let drawing = |change: fn(&mut Drawing)| {
        let (mut drawing, _) = known::a_box();
        change(&mut drawing);
        drawing
    };
    [
        known::refused(drawing(|d| d.vertices[6] = d.vertices[2]), Number::SamePlace, 2),
        known::refused(drawing(|d| d.vertices.push([60, 40, 300])), Number::LooseVertex, 8),
        known::refused(
            drawing(|d| {
                d.vertices.push([60, 0, 0]);
                d.edges.push([6, 8])
            }),
            Number::EdgeMeets,
            0,
        ),
        known::refused(
            drawing(|d| {
                d.vertices.extend([[500, 0, 0], [500, 90, 0]]);
                d.edges.push([8, 9])
            }),
            Number::Apart,
            8,
        ),
    ]
}

#[test]
fn pictures_are_well_formed_and_the_same_each_time() {
    for known in known::all().into_iter().chain(refused()) {
        let made = both(&known);
        made.iter().for_each(|svg| assert!(!xml::texts(svg).is_empty()));
        assert_eq!(made, both(&known));
        assert!(made.iter().all(|svg| !svg.contains("NaN") && !svg.contains("inf") && !svg.contains("script")));
        assert!(!made[1].contains("id="), "many stand in one page");
        assert!(made[1].len() < 2000, "{}", made[1].len());
    }
}

#[test]
fn no_picture_has_a_volume() {
    for known in known::all().into_iter().chain(refused()) {
        for svg in both(&known) {
            assert!(
                !svg.contains("987654321") && !svg.contains("volume") && !svg.contains("cubic") && !svg.contains("m³")
            );
        }
    }
}

#[test]
fn one_solid_has_shaded_walls_and_dashed_edges() {
    let [svg, small] = both(&known::a_box());
    for svg in [&svg, &small] {
        assert_eq!([count(svg, "z\" fill="), count(svg, "stroke-dasharray")], [3, 1]);
        let dashed = svg.split("<path ").find(|path| path.contains("stroke-dasharray")).unwrap();
        assert_eq!(count(dashed, "L"), 3, "{dashed}");
    }
    assert!(
        svg.contains("<title>one solid</title>") && svg.contains("<desc>8 vertices, 12 edges. The solid&#39;s 6 walls")
    );
    let texts = xml::texts(&svg);
    assert!((0..8).all(|vertex| texts.contains(&vertex.to_string())));
}

#[test]
fn what_is_refused_is_marked() {
    let [same, loose, meets, apart] = refused().map(|known| both(&known)[0].clone());
    for (svg, words) in [
        (&same, "11 SamePlace, vertex 2"),
        (&loose, "12 LooseVertex, vertex 8"),
        (&meets, "13 EdgeMeets, edge 0"),
        (&apart, "14 Apart, vertex 8"),
    ] {
        assert_eq!(xml::texts(svg).iter().filter(|text| *text == words).count(), 2, "title and heading");
        assert_eq!(count(svg, "r=\"7\""), usize::from(!words.starts_with("13")), "{words}");
        assert_eq!(count(svg, "stroke-width=\"4.5\""), usize::from(words.starts_with("13")), "{words}");
        assert_eq!(count(svg, "z\" fill="), 0, "no walls");
    }
    assert!(xml::texts(&meets).contains(&"edge 0".to_string()));
}

#[test]
fn a_search_that_ended_is_told_over_the_wires() {
    let (drawing, _) = known::a_box();
    let search = Search { loops: 6, candidates: 6, work: 40 };
    for number in Number::all().filter(|number| ENDED.contains(number)) {
        let svg = picture(&drawing, &Conversion::Ended { number, search });
        assert!(xml::texts(&svg).contains(&format!("{number}, work 40")));
        assert!(!svg.contains("stroke-width=\"4.5\"") && !svg.contains("r=\"7\""));
    }
}

#[test]
fn ambiguous_solids_stand_side_by_side() {
    let known = known::nested_cubes();
    let texts = xml::texts(&both(&known)[0]);
    for words in ["ambiguous: 3 solids", "solid 1", "solid 2", "solid 3", "a wall that only some of the solids have"] {
        assert!(texts.contains(&words.to_string()), "{words}");
    }
    assert_eq!(count(&both(&known)[1], "z\" fill="), 0, "the small one prefers none of them");
}

#[test]
fn walls_that_all_solids_have_are_grey() {
    let (drawing, conversion) = known::a_box();
    let Conversion::Report { search, candidates, mut solids } = conversion else { panic!() };
    let mut other = solids[0].clone();
    // without its last wall, the top, which is seen
    other.faces.pop();
    other.taken &= !(1 << 5);
    solids.push(other);
    let svg = picture(&drawing, &Conversion::Report { search, candidates, solids });
    let colours: Vec<&str> = svg.split("z\" fill=\"").skip(1).map(|after| &after[..7]).collect();
    let grey = |colour: &&str| colour[1..3] == colour[3..5] && colour[3..5] == colour[5..7];
    assert_eq!(colours.iter().filter(|colour| grey(colour)).count(), 4);
    assert_eq!(colours.len(), 5);
}

#[test]
fn text_is_escaped() {
    assert_eq!(escape("<a href=\"x\">&'"), "&lt;a href=&quot;x&quot;&gt;&amp;&#39;");
    assert_eq!(escape("a\nb\0\u{202e}é"), "a\\nb\\u{0}\\u{202e}é");
    let mut svg = Svg::file(9.0, 9.0, "<", "&");
    svg.text([1.0, 1.0], Letters { size: 9.0, colour: "#000", bold: false, anchor: "start" }, "</text>");
    assert_eq!(xml::texts(&svg.end()).iter().filter(|text| text.contains('&')).count(), 3);
}
