//! Plain texts: the way to a sheet and back, and what is told of lines that are wrong.
use crate::common::{run, run_on, sample, Room};
use std::fs;

const TETRAHEDRON: &str = "v 0 0 0\nv 6 0 0\nv 0 6 0\nv 0 0 6\ne 0 1\ne 0 2\ne 0 3\ne 1 2\ne 1 3\ne 2 3\n";

/// What is said of a text that stands in x.txt of a folder, from the file's name on.
fn told(text: &[u8], status: i32) -> String {
    let room = Room::new();
    let ran = run(&["sheet", &room.file("x.txt", text), "-o", &room.path("x.sheet")]);
    let line = ran.failed(status).replace(&room.path(""), "");
    assert_eq!(room.names(), ["x.txt"]);
    line.strip_prefix("nibgravel: ").expect("it begins so").to_string()
}

fn replaced(from: &str, to: &str) -> String {
    assert_eq!(TETRAHEDRON.matches(from).count(), 1);
    TETRAHEDRON.replace(from, to)
}

#[test]
fn a_sheet_comes_back_with_the_same_bytes() {
    let room = Room::new();
    for name in ["box", "frame", "l_shape", "nested_cubes", "octahedron", "refused_apart", "refused_edge_meets"] {
        let (text, sheet) = (room.path("x.txt"), room.path("x.sheet"));
        run(&["text", &format!("samples/{name}.sheet"), "-o", &text]).said(0);
        run(&["sheet", &text, "-o", &sheet]).said(0);
        assert_eq!(fs::read(&sheet).expect("a sheet"), sample(&format!("{name}.sheet")), "{name}");
    }
}

#[test]
fn a_sheet_comes_back_through_pipes() {
    let text = run_on(&["text", "-"], &sample("box.sheet"));
    assert_eq!(run_on(&["sheet", "-"], &text.out).out, sample("box.sheet"));
}

#[test]
fn edges_may_stand_in_any_order_and_either_way_round() {
    let text = "e 3 2\ne 3 1\ne 1 2\nv 0 0 0\nv 6 0 0 # a corner\n\nv 0 6 0\r\nv 0 0 6\ne 3 0\ne 2 0\ne 0 1";
    assert_eq!(run_on(&["sheet", "-"], text.as_bytes()).out, run_on(&["sheet", "-"], TETRAHEDRON.as_bytes()).out);
    let sheet = run_on(&["sheet", "-"], text.as_bytes());
    assert_eq!(run_on(&["assess", "-"], &sheet.out).said(0), "-: 0.000036 cubic metres\n");
}

#[test]
fn a_refusal_is_told_with_the_line_of_its_place() {
    let one = |from: &str, to: &str| told(replaced(from, to).as_bytes(), 1);
    assert!(one("v 0 6 0\n", "v 0 1001 0\n").starts_with("x.txt:3: 8 BadCoordinate: y of this vertex"));
    assert!(one("v 0 0 6\n", "v 0 0 -9223372036854775808\n").starts_with("x.txt:4: 8 BadCoordinate: z of this vertex"));
    assert!(one("e 0 3\n", "e 3 3\n").starts_with("x.txt:7: 9 BadEdge: "));
    assert!(one("e 0 2\n", "e 200 0\n").starts_with("x.txt:6: 9 BadEdge: "));
    // In order it stands behind the edge that it repeats, though it comes before others in the text.
    assert!(one("e 1 2\n", "e 1 2\ne 1 0\n").starts_with("x.txt:9: 10 EdgeOrder: this edge stands twice"));
}

#[test]
fn counts_that_are_refused_are_told_at_the_last() {
    assert_eq!(told(b"", 1), "x.txt:1: 5 BadCount: there are 0 vertices, and 4 to 32 are allowed.");
    let few = replaced("e 0 1\n", "");
    assert_eq!(told(few.as_bytes(), 1), "x.txt:9: 5 BadCount: there are 5 edges, and 6 to 64 are allowed.");
    for count in [33, 42, 43, 5_000] {
        let many = "v 0 0 0\n".repeat(count);
        assert_eq!(
            told(many.as_bytes(), 1),
            format!("x.txt:{count}: 5 BadCount: there are {count} vertices, and 4 to 32 are allowed.")
        );
    }
    for count in [65, 512, 513, 6_000] {
        let many = "v 0 0 0\n".repeat(4) + &"e 0 1\n".repeat(count);
        let line = count + 4;
        assert_eq!(
            told(many.as_bytes(), 1),
            format!("x.txt:{line}: 5 BadCount: there are {count} edges, and 6 to 64 are allowed.")
        );
    }
}

#[test]
fn what_is_no_text_is_told_with_its_line() {
    assert_eq!(told(b"v 0 0 0\nw 1\n", 2), "x.txt:2: a line begins with v, e or #, not with `w`");
    assert_eq!(told(b"v 0 0 1e3\n", 2), "x.txt:1: `1e3` is no whole decimal number");
    assert_eq!(told(b"v 0 0 9223372036854775808\n", 2), "x.txt:1: `9223372036854775808` is no number of 64 bits");
    assert!(told(b"v 0 0 0\ne 0 256\n", 2).starts_with("x.txt:2: `256` is no number of a vertex"));
    assert!(told(&sample("box.sheet"), 2).starts_with("x.txt:1: a line begins with v, e or #, not with `\\x1"));
    let binary: Vec<u8> = (0..=255).cycle().take(100_000).collect();
    assert!(told(&binary, 2).starts_with("x.txt:1: "));
    assert_eq!(told(&[b'v'; 5_000], 2), "x.txt:1: the line is longer than 1000 bytes");
    assert_eq!(told(&b"#\n".repeat(600_000), 2), "x.txt:524289: the text is longer than 1048576 bytes");
    let zeros = run(&["sheet", "/dev/zero", "-o", "/dev/null"]);
    assert_eq!(zeros.failed(2), "nibgravel: /dev/zero:1: the line is longer than 1000 bytes");
}

#[test]
fn json_says_the_length_or_the_refusal() {
    let room = Room::new();
    let text = room.file("x.txt", TETRAHEDRON.as_bytes());
    let said = run(&["sheet", &text, "--json", "-o", &room.path("x.sheet")]).said(0);
    assert_eq!(said, format!("{{\"file\":\"{text}\",\"length\":27}}\n"));
    let bad = room.file("y.txt", replaced("e 0 3\n", "e 3 3\n").as_bytes());
    let refused = run(&["sheet", &bad, "--json", "-o", &room.path("y.sheet")]);
    assert_eq!(refused.status, Some(1));
    assert!(refused
        .text()
        .starts_with(&format!("{{\"file\":\"{bad}\",\"refused\":true,\"number\":9,\"name\":\"BadEdge\",\"place\":5,")));
}
