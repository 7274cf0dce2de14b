//! All tests of the command: one program, a module per subject.
mod book;
mod common;
mod files;
mod programs;
mod samples;
mod texts;
mod words;
