//! The cells of a row. One that has nothing to say is empty: above all the cubic metres of a sheet not assessed.
use super::sort::Sort;
use crate::answers;
use crate::model::{Assessment, Conversion, Reading};
use crate::picture::escape::escape;
use crate::picture::small;
use std::io::{self, Write};

/// A sheet's row: what was said of it, or why its file couldn't be read.
pub struct Row<'a> {
    pub file: &'a str,
    pub assessment: Option<&'a Assessment>,
    pub problem: Option<&'a str>,
}

pub struct Cells<'a> {
    pub sort: Sort,
    file: &'a str,
    picture: String,
    /// A sentence on what to do, or why the file couldn't be read.
    advice: String,
    place: String,
    cubic_metres: String,
    solids: String,
    work: String,
}

impl<'a> Cells<'a> {
    pub fn of(row: &Row<'a>) -> Cells<'a> {
        match row.assessment {
            Some(assessment) if row.problem.is_none() => Cells::assessment(row.file, assessment),
            _ => Cells::empty(row.file, Sort::Unreadable, row.problem.unwrap_or_default().to_string()),
        }
    }

    fn empty(file: &str, sort: Sort, advice: String) -> Cells<'_> {
        let [picture, place, cubic_metres, solids, work] = Default::default();
        Cells { sort, file, picture, advice, place, cubic_metres, solids, work }
    }

    fn assessment(file: &'a str, assessment: &Assessment) -> Cells<'a> {
        let (sort, cubic_metres) = match assessment.reading {
            Reading::Volume(volume) => (Sort::Assessed, volume.to_string()),
            Reading::NotAssessed(number) => (Sort::NotAssessed(number), String::new()),
        };
        let conversion = &assessment.conversion;
        let picture = assessment.drawing.as_ref().map(|drawing| small(drawing, conversion)).unwrap_or_default();
        let (solids, work) = match conversion {
            Conversion::Report { solids, search, .. } => (solids.len().to_string(), search.work.to_string()),
            Conversion::Ended { search, .. } => (String::new(), search.work.to_string()),
            Conversion::Refused(_) => (String::new(), String::new()),
        };
        Cells {
            picture,
            cubic_metres,
            solids,
            work,
            place: place(conversion),
            ..Cells::empty(file, sort, advice(sort))
        }
    }

    pub fn write(&self, out: &mut impl Write) -> io::Result<()> {
        let class = if self.sort == Sort::Assessed { "row" } else { "row not" };
        let [key, words] = [self.sort.key(), self.sort.words()].map(|text| escape(&text));
        write!(
            out,
            "<div class=\"{class}\" role=\"row\" data-answer=\"{key}\"><div role=\"cell\">{}</div>",
            self.picture
        )?;
        write!(out, "<div role=\"cell\" class=\"file\"><bdi>{}</bdi></div>", escape(self.file))?;
        write!(out, "<div role=\"cell\"><b>{words}</b><small>{}</small></div>", escape(&self.advice))?;
        write!(out, "<div role=\"cell\">{}</div>", escape(&self.place))?;
        for number in [&self.cubic_metres, &self.solids, &self.work] {
            write!(out, "<div role=\"cell\" class=\"number\">{}</div>", escape(number))?;
        }
        out.write_all(b"</div>\n")
    }
}

/// The sentence of the table, with a capital.
fn advice(sort: Sort) -> String {
    let Sort::NotAssessed(number) = sort else { return String::new() };
    let sentence = answers::advice(number);
    let mut letters = sentence.chars();
    letters.next().map_or(String::new(), |first| first.to_uppercase().chain(letters).collect())
}

/// The place in words, as `edge 4`; empty where there is none.
fn place(conversion: &Conversion) -> String {
    let told = match conversion {
        Conversion::Report { .. } => None,
        Conversion::Ended { number, search } => number.place().told(search.work),
        Conversion::Refused(refusal) => refusal.number.place().told(refusal.place),
    };
    told.unwrap_or_default()
}
