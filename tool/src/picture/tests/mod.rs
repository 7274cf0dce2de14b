//! Tests of the pictures, on known drawings.
mod degenerate;
mod hiding;
pub mod known;
mod lines;
mod looks;
mod painting;
mod viewing;
mod xml;
