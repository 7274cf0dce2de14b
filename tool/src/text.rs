//! A drawing as plain text: `v x y z` and `e a b` lines, with `#` before what is for people.
use crate::model::Drawing;
use std::error::Error;
use std::fmt;

/// So that neither a line nor a text is held that is no drawing's.
const LONGEST_LINE: usize = 1_000;
pub const LONGEST_TEXT: usize = 1 << 20;

/// What a text says, laid out as a sheet has it: in each edge the lower end first, and the edges sorted. With the lines
/// on which they stand.
#[derive(Debug, Default, PartialEq, Eq)]
pub struct Lists {
    pub coordinates: Vec<i64>,
    pub ends: Vec<u8>,
    pub vertex_lines: Vec<usize>,
    pub edge_lines: Vec<usize>,
    /// How many lines there are.
    pub lines: usize,
}

/// A line that says nothing: its number, from 1, and what is wrong.
#[derive(Debug, PartialEq, Eq)]
pub struct Wrong {
    pub line: usize,
    pub what: String,
}

impl fmt::Display for Wrong {
    fn fmt(&self, out: &mut fmt::Formatter) -> fmt::Result {
        write!(out, "{}: {}", self.line, self.what)
    }
}

impl Error for Wrong {}

/// The text of a drawing, with its vertices and edges numbered.
pub fn written(drawing: &Drawing) -> String {
    let mut text = "# v x y z: a vertex, in centimetres; e a b: an edge between two vertices\n".to_string();
    for (k, [x, y, z]) in drawing.vertices.iter().enumerate() {
        text += &format!("{:<20} # vertex {k}\n", format!("v {x} {y} {z}"));
    }
    for (k, [a, b]) in drawing.edges.iter().enumerate() {
        text += &format!("{:<20} # edge {k}\n", format!("e {a} {b}"));
    }
    text
}

/// Reads a text, of which one byte more than [`LONGEST_TEXT`] is enough.
pub fn read(bytes: &[u8]) -> Result<Lists, Wrong> {
    let (mut lists, mut edges) = (Lists::default(), vec![]);
    let whole = whole_lines(bytes);
    for (k, line) in whole.split(|byte| *byte == b'\n').enumerate() {
        lists.lines = k + 1;
        read_line(line, &mut lists, &mut edges).map_err(|what| Wrong { line: k + 1, what })?;
    }
    if bytes.len() > LONGEST_TEXT {
        let what = format!("the text is longer than {LONGEST_TEXT} bytes");
        return Err(Wrong { line: lists.lines + 1, what });
    }
    // Equal edges stay in the order of their lines.
    edges.sort();
    lists.ends = edges.iter().flat_map(|(ends, _)| *ends).collect();
    lists.edge_lines = edges.iter().map(|(_, line)| *line).collect();
    Ok(lists)
}

/// Without the mark that some editors put before the first line, the last line's end, and a line that was cut.
fn whole_lines(bytes: &[u8]) -> &[u8] {
    let end = if bytes.len() > LONGEST_TEXT { bytes.iter().rposition(|byte| *byte == b'\n') } else { None };
    let whole = &bytes[..end.unwrap_or(bytes.len())];
    let whole = whole.strip_prefix(b"\xef\xbb\xbf").unwrap_or(whole);
    whole.strip_suffix(b"\n").unwrap_or(whole)
}

fn read_line(line: &[u8], lists: &mut Lists, edges: &mut Vec<([u8; 2], usize)>) -> Result<(), String> {
    if line.len() > LONGEST_LINE {
        return Err(format!("the line is longer than {LONGEST_LINE} bytes"));
    }
    let said = line.split(|byte| *byte == b'#').next().unwrap_or(line);
    let words: Vec<&[u8]> = said.split(u8::is_ascii_whitespace).filter(|word| !word.is_empty()).collect();
    match words.as_slice() {
        [] => (),
        [b"v", x, y, z] => {
            let [x, y, z] = [number(x)?, number(y)?, number(z)?];
            lists.coordinates.extend([x, y, z]);
            lists.vertex_lines.push(lists.lines);
        }
        [b"e", a, b] => {
            let (a, b) = (end(a)?, end(b)?);
            edges.push(([a.min(b), a.max(b)], lists.lines));
        }
        [b"v", ..] => return Err("a vertex is `v x y z`".to_string()),
        [b"e", ..] => return Err("an edge is `e a b`".to_string()),
        [other, ..] => return Err(format!("a line begins with v, e or #, not with {}", short(other))),
    }
    Ok(())
}

fn number(word: &[u8]) -> Result<i64, String> {
    let digits = word.strip_prefix(b"-").unwrap_or(word);
    if digits.is_empty() || !digits.iter().all(u8::is_ascii_digit) {
        return Err(format!("{} is no whole decimal number", short(word)));
    }
    let parsed = std::str::from_utf8(word).ok().and_then(|text| text.parse().ok());
    parsed.ok_or_else(|| format!("{} is no number of 64 bits", short(word)))
}

fn end(word: &[u8]) -> Result<u8, String> {
    number(word).ok().and_then(|number| u8::try_from(number).ok()).ok_or_else(|| {
        format!("{} is no number of a vertex: they are counted from 0, and none is above 255", short(word))
    })
}

/// The start of a word, whatever its bytes are.
fn short(word: &[u8]) -> String {
    let start = word[..word.len().min(24)].escape_ascii();
    format!("`{start}{}`", if word.len() > 24 { ".." } else { "" })
}

#[cfg(test)]
mod tests {
    use super::*;

    fn wrong(text: &[u8]) -> String {
        read(text).map_or_else(|wrong| wrong.to_string(), |lists| format!("{lists:?}"))
    }

    #[test]
    fn edges_are_sorted_and_keep_their_lines() {
        let lists = read(b"\xef\xbb\xbf# a drawing\r\nv 1 -2 3\r\n\ne 7 2 # one\n  e\t2 1\ne 1 2\n").expect("a text");
        assert_eq!((lists.coordinates, lists.vertex_lines), (vec![1, -2, 3], vec![2]));
        assert_eq!((lists.ends, lists.edge_lines), (vec![1, 2, 1, 2, 2, 7], vec![5, 6, 4]));
        assert_eq!(lists.lines, 6);
    }

    #[test]
    fn what_is_no_line_is_told_with_its_number() {
        assert_eq!(wrong(b"v 1 2 3\nv 1 2\n"), "2: a vertex is `v x y z`");
        assert_eq!(wrong(b"e 1 2 3"), "1: an edge is `e a b`");
        assert_eq!(wrong(b"\n\nface 1"), "3: a line begins with v, e or #, not with `face`");
        assert_eq!(
            wrong(b"\x7fELF\x02\x01\0\0 x"),
            "1: a line begins with v, e or #, not with `\\x7fELF\\x02\\x01\\x00\\x00`"
        );
        assert_eq!(wrong(b"v 1.5 2 3"), "1: `1.5` is no whole decimal number");
        assert_eq!(wrong(b"v 1 + 3"), "1: `+` is no whole decimal number");
        assert_eq!(wrong(b"v 9223372036854775808 0 0"), "1: `9223372036854775808` is no number of 64 bits");
        assert!(wrong(b"e 0 256").starts_with("1: `256` is no number of a vertex"));
        assert!(wrong(b"e -1 2").starts_with("1: `-1` is no number of a vertex"));
    }

    #[test]
    fn lines_and_texts_have_an_end() {
        assert_eq!(wrong(&vec![0; LONGEST_TEXT + 1]), "1: the line is longer than 1000 bytes");
        let many = b"v 0 0 0\n".repeat(LONGEST_TEXT / 8 + 1);
        assert_eq!(wrong(&many[..LONGEST_TEXT + 1]), "131073: the text is longer than 1048576 bytes");
    }
}
