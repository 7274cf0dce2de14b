//! `hunt`: a search for solids that bound no region of space.
use super::args::{say, Args};
use nibgravel_reference::hunt::{Hunt, Without};

pub fn hunt(args: &Args) -> Result<(), String> {
    args.allow(1, &["count", "seed", "without"])?;
    let without = match args.choice("without", &["nothing", "A", "B", "C", "cover"])? {
        "A" => Without::RuleA,
        "B" => Without::RuleB,
        "C" => Without::RuleC,
        "cover" => Without::Cover,
        _ => Without::Nothing,
    };
    let hunt = Hunt::run(args.number("seed", 1)?, args.number("count", 10_000)?, without);
    say(&hunt.to_string())?;
    if hunt.found.is_empty() {
        Ok(())
    } else {
        Err("there are selections that bound no region".to_string())
    }
}
