//! The ledger: a line of CSV for each sheet of a folder.
use crate::model::{Conversion, Reading};
use crate::rows::{refusal, Row};

pub const HEADER: &str = "file,answer,place,reading,solids,six volumes,work\n";

/// What stands for an answer where a file can't be read.
pub const UNREADABLE: &str = "unreadable";

/// A line. A field stays empty where there is no such number: nothing stands for a volume that was not assessed.
pub fn line(file: &str, row: &Row) -> String {
    let fields = row.as_ref().map_or([UNREADABLE, "", "", "", "", ""].map(str::to_string), |assessment| {
        let refused = refusal(assessment);
        let (solids, work) = match &assessment.conversion {
            Conversion::Report { search, solids, .. } => (solids.len().to_string(), search.work.to_string()),
            Conversion::Ended { search, .. } => (String::new(), search.work.to_string()),
            Conversion::Refused(_) => Default::default(),
        };
        let place = match (&assessment.conversion, refused) {
            (Conversion::Report { .. }, _) | (_, None) => String::new(),
            (_, Some(refused)) => refused.place.to_string(),
        };
        let (reading, six) = match (assessment.reading, &assessment.conversion) {
            // The shortest decimal that reads back to the same double.
            (Reading::Volume(volume), Conversion::Report { solids, .. }) => {
                (volume.to_string(), solids.first().map_or(String::new(), |solid| solid.six.to_string()))
            }
            _ => Default::default(),
        };
        let number = refused.map_or(0, |refused| u8::from(refused.number));
        [number.to_string(), place, reading, solids, six, work]
    });
    format!("{},{}\n", quoted(&no_formula(file)), fields.join(","))
}

/// A spreadsheet takes what begins so for a formula. With `./` before it the name is of the same file, and no formula.
fn no_formula(file: &str) -> String {
    if file.starts_with(['=', '+', '-', '@', '\t', '\r']) {
        format!("./{file}")
    } else {
        file.to_string()
    }
}

/// By RFC 4180.
fn quoted(field: &str) -> String {
    if field.contains(['"', ',', '\r', '\n']) {
        format!("\"{}\"", field.replace('"', "\"\""))
    } else {
        field.to_string()
    }
}

#[cfg(test)]
mod tests {
    use super::*;

    #[test]
    fn a_name_is_no_formula_and_is_quoted() {
        let unreadable = Err("gone".into());
        assert_eq!(line("=1+1.sheet", &unreadable), "./=1+1.sheet,unreadable,,,,,\n");
        assert_eq!(line("-a,\"b\"\n.sheet", &unreadable), "\"./-a,\"\"b\"\"\n.sheet\",unreadable,,,,,\n");
        assert_eq!(line("a b.sheet", &unreadable), "a b.sheet,unreadable,,,,,\n");
    }
}
