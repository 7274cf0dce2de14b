//! `explain`: what was asked of a sheet, and what was found.
use super::objects::put_object;
use crate::answers::{advice, passed, wrong};
use crate::args::Args;
use crate::command::{file, Command, LIMIT};
use crate::input::shown;
use crate::json::Json;
use crate::model::{Assessment, Conversion, Drawing, Refusal};
use crate::output::put;
use crate::rows::{one, reading, reading_fields, refusal, status};
use crate::trouble::Trouble;
use nibgravel_numbers::{Number, Place, DRAWING_RULES};
use solids::{differing, explain_solids, in_all, solid_object};

mod solids;

pub const COMMAND: Command = Command {
    name: "explain",
    about: "which rules a sheet passed, what was searched, and every solid with its faces",
    operands: &[file("FILE")],
    options: &[LIMIT],
    details: &[
        "The rules are document 01's 3 to 16. They are asked in order, and none behind the first that refuses. Where \
         several solids are allowed, it says which walls all of them have and which only some.",
        "Six volumes are six times the volume in cubic centimetres. They are an assessment only where there is one \
         solid; then the reading in cubic metres stands beside them.",
        "With --json the object has what assess has, and rules, vertices, edges, loops, candidates, work, solids, \
         shared and differing, as far as there are such things.",
    ],
    example: ("explain samples/refused_apart.sheet", EXAMPLE),
};

const EXAMPLE: &str = include_str!("../../tests/expected/explain/refused_apart.txt");

pub fn run(args: &Args) -> Result<u8, Trouble> {
    let file = args.word(0);
    let assessment = one(file, args.limit()?)?;
    if args.json() {
        put_object(file, fields(&assessment))?;
    } else {
        put(format!("{}: {}", shown(file), explained(&assessment)).as_bytes())?;
    }
    Ok(status(&assessment))
}

fn explained(assessment: &Assessment) -> String {
    let mut text = head(assessment);
    if let Some(drawing) = &assessment.drawing {
        text += &format!("{} vertices, {} edges\n", drawing.vertices.len(), drawing.edges.len());
    }
    text += "\nrules\n";
    for number in rules() {
        text += &format!("  {}\n", rule(number, assessment));
    }
    if let Conversion::Report { search, .. } | Conversion::Ended { search, .. } = &assessment.conversion {
        text +=
            &format!("\nsearch\n  loops {}, candidates {}, work {}\n", search.loops, search.candidates, search.work);
    }
    match &assessment.conversion {
        Conversion::Report { candidates, solids, .. } => text + &explain_solids(candidates, solids, assessment.reading),
        _ => text,
    }
}

/// The reading, and where there is none what is wrong and what to do.
fn head(assessment: &Assessment) -> String {
    match refusal(assessment) {
        None => format!("{}\n", reading(assessment)),
        Some(refusal) => {
            let (wrong, advice) = (wrong(refusal.number), advice(refusal.number));
            format!("not assessed {refusal}\nwhat is wrong: {wrong}\nwhat to do: {advice}\n")
        }
    }
}

fn rules() -> impl Iterator<Item = Number> {
    Number::all().filter(|number| DRAWING_RULES.contains(number))
}

/// The first rule that refused; those before it were passed, and those behind it not asked.
fn refusing(assessment: &Assessment) -> Option<Refusal> {
    match assessment.conversion {
        Conversion::Refused(refusal) => Some(refusal),
        _ => None,
    }
}

fn result(number: Number, assessment: &Assessment) -> &'static str {
    match refusing(assessment) {
        Some(refusal) if refusal.number == number => "refused",
        Some(refusal) if refusal.number < number => "not asked",
        _ => "passed",
    }
}

fn rule(number: Number, assessment: &Assessment) -> String {
    let result = result(number, assessment);
    let line = format!("{:<17} {result}", number.to_string());
    match (result, refusing(assessment)) {
        ("passed", _) => format!("{line}: {}", passed(number)),
        ("refused", Some(refusal)) => line + &located(refusal, assessment.drawing.as_ref()),
        _ => line,
    }
}

/// Where a refusal is, by the drawing's own points.
fn located(refusal: Refusal, drawing: Option<&Drawing>) -> String {
    let place = refusal.place as usize;
    let point = |vertex: usize| {
        drawing.and_then(|drawing| drawing.vertices.get(vertex)).map(|[x, y, z]| format!("({x}, {y}, {z})"))
    };
    match refusal.number.place() {
        Place::List => format!(" for its {}", if place == 0 { "vertices" } else { "edges" }),
        Place::Coordinate => format!(" at {} of vertex {}", ["x", "y", "z"][place % 3], place / 3),
        Place::Vertex => {
            format!(" at vertex {place}{}", point(place).map_or(String::new(), |point| format!(" {point}")))
        }
        Place::Edge => {
            let ends = drawing.and_then(|drawing| drawing.edges.get(place));
            let points = ends.and_then(|[a, b]| Some(format!(" from vertex {a} {} to {b} {}", point(*a)?, point(*b)?)));
            format!(" at edge {place}{}", points.unwrap_or_default())
        }
        _ => String::new(),
    }
}

fn fields(assessment: &Assessment) -> Vec<(&'static str, Json)> {
    let mut fields = reading_fields(assessment);
    if let Some(drawing) = &assessment.drawing {
        fields.extend([("vertices", drawing.vertices.len().into()), ("edges", drawing.edges.len().into())]);
    }
    let rule = |number: Number| {
        let (name, result) = (number.name(), result(number, assessment));
        Json::Object(vec![("number", number.into()), ("name", name.into()), ("result", result.into())])
    };
    fields.push(("rules", Json::List(rules().map(rule).collect())));
    if let Conversion::Report { search, .. } | Conversion::Ended { search, .. } = &assessment.conversion {
        fields.extend([
            ("loops", search.loops.into()),
            ("candidates", search.candidates.into()),
            ("work", search.work.into()),
        ]);
    }
    if let Conversion::Report { solids, .. } = &assessment.conversion {
        let assessed = refusal(assessment).is_none();
        fields.push(("solids", Json::List(solids.iter().map(|solid| solid_object(solid, assessed)).collect())));
        if !assessed {
            fields.extend([("shared", Json::list(in_all(solids))), ("differing", differing(solids))]);
        }
    }
    fields
}
