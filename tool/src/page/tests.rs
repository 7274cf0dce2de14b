//! Tests of the page.
use super::{Page, Row};
use crate::model::{Assessment, Conversion, Reading, Refusal, Search};
use crate::picture::tests::known::{self, Known};
use nibgravel_numbers::Number;

fn assessed((drawing, conversion): Known, reading: Reading) -> Assessment {
    Assessment { drawing: Some(drawing), conversion, reading }
}

fn refused(number: Number, place: u64) -> Assessment {
    let conversion = Conversion::Refused(Refusal { number, place });
    Assessment { drawing: None, conversion, reading: Reading::NotAssessed(number) }
}

fn page(rows: &[Row]) -> String {
    let mut page = Page::begin(Vec::new(), "Sheets & <more>").unwrap();
    rows.iter().for_each(|row| page.row(row).unwrap());
    String::from_utf8(page.end().unwrap()).unwrap()
}

/// The cells of a page with this one row, without the picture.
fn cells(file: &str, assessment: &Assessment) -> Vec<String> {
    let html = page(&[Row { file, assessment: Some(assessment), problem: None }]);
    let row = html.lines().find(|line| line.contains("data-answer")).unwrap();
    let after = html[html.find(row).unwrap()..].split("<div role=\"cell\"").skip(2).take(6);
    after.map(|cell| cell[cell.find('>').unwrap() + 1..cell.find("</div>").unwrap()].to_string()).collect()
}

#[test]
fn a_sheet_that_was_assessed_has_its_reading() {
    let cells = cells("a.sheet", &assessed(known::a_box(), Reading::Volume(1.92)));
    assert_eq!(cells, ["<bdi>a.sheet</bdi>", "<b>assessed</b><small></small>", "", "1.92", "1", "4"]);
}

#[test]
fn no_other_sheet_has_one() {
    let ambiguous = cells("b", &assessed(known::nested_cubes(), Reading::NotAssessed(Number::Ambiguous)));
    assert!(ambiguous[1].starts_with("<b>30 Ambiguous</b><small>Ask which walls exist"));
    assert_eq!(ambiguous[2..], ["", "", "3", "4"]);
    let search = Search { loops: 7, candidates: 6, work: 12 };
    let ended = (known::a_box().0, Conversion::Ended { number: Number::NoSolid, search });
    assert_eq!(cells("c", &assessed(ended, Reading::NotAssessed(Number::NoSolid)))[2..], ["work 12", "", "", "12"]);
    assert_eq!(cells("d", &refused(Number::EdgeMeets, 4))[2..], ["edge 4", "", "", ""]);
    for number in Number::all() {
        assert_eq!(cells("e", &refused(number, 0))[3..], ["", "", ""], "{number}");
    }
}

#[test]
fn a_file_that_could_not_be_read_says_why() {
    let html = page(&[Row { file: "f", assessment: None, problem: Some("no <such> file") }]);
    assert!(
        html.contains("data-answer=\"unreadable\"")
            && html.contains("<b>unreadable</b><small>no &lt;such&gt; file</small>")
    );
}

#[test]
fn a_problem_leaves_no_reading() {
    let assessment = assessed(known::a_box(), Reading::Volume(1.92));
    let html = page(&[Row { file: "f", assessment: Some(&assessment), problem: Some("cut off") }]);
    assert!(html.contains("<b>unreadable</b><small>cut off</small>") && !html.contains("1.92"));
}

#[test]
fn names_can_not_break_out() {
    let hostile = "</bdi><script>alert(1)</script>\" onclick='x' &amp;\n\u{202e}";
    let html = page(&[Row { file: hostile, assessment: Some(&refused(Number::SheetLength, 0)), problem: None }]);
    let shown = "&lt;/bdi&gt;&lt;script&gt;alert(1)&lt;/script&gt;&quot; onclick=&#39;x&#39; &amp;amp;\\n\\u{202e}";
    assert!(html.contains(&format!("<bdi>{shown}</bdi>")));
    assert_eq!(html.matches("<script").count(), 1, "the page's own");
    assert!(html.contains("<title>Sheets &amp; &lt;more&gt;</title>"));
    assert!(html.contains("<h1>Sheets &amp; &lt;more&gt;</h1>"));
}

#[test]
fn nothing_comes_from_elsewhere() {
    let html =
        page(&[Row { file: "a", assessment: Some(&assessed(known::frame(), Reading::Volume(1.0))), problem: None }]);
    assert!(html.contains("content=\"default-src 'none'; style-src 'unsafe-inline'; script-src 'unsafe-inline';"));
    for outside in ["http:", "https:", "src=", "href", "@import", "url("] {
        assert!(!html.contains(outside), "{outside}");
    }
    assert!(html.starts_with("<!DOCTYPE html>\n<html lang=\"en\">\n<head>\n<meta charset=\"utf-8\">"));
}

#[test]
fn the_end_counts_the_answers() {
    let (meets, damaged) = (refused(Number::EdgeMeets, 4), refused(Number::SheetLength, 0));
    let one = assessed(known::a_box(), Reading::Volume(1.92));
    let row = |assessment| Row { file: "x", assessment, problem: None };
    let html = page(&[row(Some(&meets)), row(Some(&damaged)), row(None), row(Some(&one)), row(Some(&meets))]);
    assert!(html.contains(
        "<p class=\"summary\">5 sheets: assessed (1), 6 SheetLength (1), 13 EdgeMeets (2), unreadable (1)</p>"
    ));
    assert!(page(&[]).contains("<p class=\"summary\">0 sheets</p>"));
}

/// A writer that takes so many bytes and then fails, and that knows whether it was flushed.
struct Full(usize, bool);

impl std::io::Write for Full {
    fn write(&mut self, bytes: &[u8]) -> std::io::Result<usize> {
        self.0 = self.0.checked_sub(bytes.len()).ok_or(std::io::ErrorKind::WriteZero)?;
        Ok(bytes.len())
    }

    fn flush(&mut self) -> std::io::Result<()> {
        self.1 = true;
        Ok(())
    }
}

#[test]
fn a_writer_that_fails_is_told() {
    assert!(Page::begin(Full(10, false), "t").is_err());
    let mut page = Page::begin(Full(6000, false), "t").unwrap();
    let row = Row { file: "a", assessment: None, problem: None };
    assert!((0..100).any(|_| page.row(&row).is_err()) && page.end().is_err());
    assert!(Page::begin(Full(9999, false), "t").and_then(Page::end).unwrap().1, "all is written");
}
