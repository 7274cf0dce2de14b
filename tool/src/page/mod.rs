//! A page in HTML with a row for each sheet, written as the rows come: only the counts of the answers are kept.
mod cells;
mod sort;

#[cfg(test)]
mod tests;

pub use cells::Row;

use crate::picture::escape::escape;
use cells::Cells;
use sort::Sort;
use std::collections::BTreeMap;
use std::io::{self, Write};

const STYLE: &str = include_str!("style.css");
const SCRIPT: &str = include_str!("script.js");
/// Nothing is loaded, sent or framed; only what stands in the page itself is used.
const POLICY: &str =
    "default-src 'none'; style-src 'unsafe-inline'; script-src 'unsafe-inline'; base-uri 'none'; form-action 'none'";
const COLUMNS: [&str; 7] = ["picture", "file", "answer", "place", "cubic metres", "solids", "work"];

/// A page that is being written.
pub struct Page<W: Write> {
    out: W,
    counts: BTreeMap<Sort, u64>,
}

impl<W: Write> Page<W> {
    pub fn begin(mut out: W, title: &str) -> io::Result<Page<W>> {
        let title = escape(title);
        write!(
            out,
            "<!DOCTYPE html>\n<html lang=\"en\">\n<head>\n<meta charset=\"utf-8\">\n\
             <meta http-equiv=\"Content-Security-Policy\" content=\"{POLICY}\">\n\
             <meta name=\"viewport\" content=\"width=device-width, initial-scale=1\">\n\
             <title>{title}</title>\n<style>\n{STYLE}</style>\n</head>\n<body>\n<h1>{title}</h1>\n\
             <div id=\"filters\" hidden></div>\n<div class=\"table\" role=\"table\">\n\
             <div class=\"row head\" role=\"row\">"
        )?;
        for column in COLUMNS {
            write!(out, "<div role=\"columnheader\">{column}</div>")?;
        }
        out.write_all(b"</div>\n")?;
        Ok(Page { out, counts: BTreeMap::new() })
    }

    pub fn row(&mut self, row: &Row) -> io::Result<()> {
        let cells = Cells::of(row);
        *self.counts.entry(cells.sort).or_default() += 1;
        cells.write(&mut self.out)
    }

    /// Writes the counts and the script, and gives the writer back.
    pub fn end(mut self) -> io::Result<W> {
        let summary = escape(&self.summary());
        write!(
            self.out,
            "</div>\n<p class=\"summary\">{summary}</p>\n<script>\n{SCRIPT}</script>\n</body>\n</html>\n"
        )?;
        self.out.flush()?;
        Ok(self.out)
    }

    /// As `3 sheets: assessed (1), 13 EdgeMeets (2)`.
    fn summary(&self) -> String {
        let sheets: u64 = self.counts.values().sum();
        let of_them: Vec<String> =
            self.counts.iter().map(|(sort, count)| format!("{} ({count})", sort.words())).collect();
        let plural = if sheets == 1 { "" } else { "s" };
        let colon = if sheets == 0 { "" } else { ": " };
        format!("{sheets} sheet{plural}{colon}{}", of_them.join(", "))
    }
}
