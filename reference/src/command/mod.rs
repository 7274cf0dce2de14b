//! The program's commands.
pub mod args;
pub mod bench;
pub mod corpus;
pub mod hunt;
pub mod ledger;
pub mod stats;
pub mod texts;
pub mod trial;
