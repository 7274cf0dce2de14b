//! Reads a sheet from standard input and prints what a premium may be set from, and every solid that was found.
use nibgravel::{assess_sheet, convert_sheet, MOST_WORK};
use std::io::Read;

fn main() -> std::io::Result<()> {
    let mut sheet = Vec::new();
    std::io::stdin().read_to_end(&mut sheet)?;
    println!("{}", assess_sheet(&sheet, MOST_WORK));
    match convert_sheet(&sheet, MOST_WORK) {
        Ok(report) => report.solids().for_each(|solid| {
            let faces: Vec<String> = solid.faces().map(|face| face.to_string()).collect();
            println!("six volumes {}, faces {}", solid.six_volumes(), faces.join(" "));
        }),
        Err(error) => println!("refused: {error}"),
    }
    Ok(())
}
