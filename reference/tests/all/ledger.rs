//! The ledger of a folder.
use nibgravel_reference::convert::convert;
use nibgravel_reference::fast;
use nibgravel_reference::ledger::ledger;
use std::fs;
use std::path::Path;

const HEADER: &str = "file,answer,place,reading,solids,six volumes,work\n";

const SAMPLES: &str = "\
box.sheet,0,,1.92,1,11520000,0
damaged.sheet,6,0,,,,
frame.sheet,0,,1.12,1,6720000,0
l_shape.sheet,0,,3.24,1,19440000,0
nested_cubes.sheet,30,,,3,,4
nested_cubes_renumbered.sheet,30,,,3,,4
octahedron.sheet,0,,0.0013333333333333333,1,8000,4
octahedron_mirrored.sheet,0,,0.0013333333333333333,1,8000,4
octahedron_renumbered.sheet,0,,0.0013333333333333333,1,8000,4
octahedron_shifted.sheet,0,,0.0013333333333333333,1,8000,4
refused_apart.sheet,14,8,,,,
refused_edge_meets.sheet,13,0,,,,
refused_loose_vertex.sheet,12,8,,,,
refused_same_place.sheet,11,2,,,,
";

#[test]
fn the_samples_have_their_ledger_by_both_versions() {
    let folder = Path::new(env!("CARGO_MANIFEST_DIR")).join("../samples");
    for converter in [convert, fast::convert] {
        assert_eq!(ledger(converter, &folder).expect("the samples"), format!("{HEADER}{SAMPLES}"));
    }
}

#[test]
fn names_are_quoted_and_are_no_formulas() {
    let folder = std::env::temp_dir().join(format!("nibgravel-ledger-{}", std::process::id()));
    fs::create_dir_all(folder.join("within.sheet")).expect("a folder");
    for name in ["=1+1.sheet", "a,b.sheet", "say \"a\".sheet", ".hidden.sheet", "other.txt"] {
        fs::write(folder.join(name), [16, 1]).expect("a file");
    }
    let lines = ledger(fast::convert, &folder).expect("the folder");
    fs::remove_dir_all(&folder).expect("removed");
    let expected =
        "./=1+1.sheet,3,0,,,,\n\"a,b.sheet\",3,0,,,,\n\"say \"\"a\"\".sheet\",3,0,,,,\nwithin.sheet,unreadable,,,,,\n";
    assert_eq!(lines, format!("{HEADER}{expected}"));
}
