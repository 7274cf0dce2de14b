//! Document 01 in plain Rust: the modules up to `desk` are the clear version, `fast` is the quick one, `gen`, `rows`,
//! `trial`, `moves` and `calls` make drawings and cases, and `hunt` searches them.
pub mod bits;
pub mod check;
pub mod clash;
pub mod convert;
pub mod cover;
pub mod desk;
pub mod drawing;
pub mod face_list;
pub mod ledger;
pub mod loops;
pub mod numbers;
pub mod polygon;
pub mod reading;
pub mod rules;
pub mod sheet;
pub mod solids;
pub mod source;
pub mod subsets;
pub mod vector;
pub mod walk;

pub mod calls;
pub mod fast;
pub mod gen;
pub mod hunt;
pub mod moves;
pub mod rows;
pub mod trial;
