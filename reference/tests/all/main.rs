//! All tests of the reference: one program, a module per subject.
mod agree;
mod common;
mod errors;
mod face_lists;
mod generators;
mod hunt;
mod known;
mod ledger;
mod moves;
mod places;
mod refusals;
mod rows;
mod samples;
mod subsets;
mod trials;
