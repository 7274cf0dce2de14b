//! The JSON object of a file, and a refusal with its own.
use crate::answers::advised;
use crate::args::Args;
use crate::input::shown;
use crate::json::Json;
use crate::model::Refusal;
use crate::output::put;
use crate::rows::refusal_fields;
use crate::trouble::{complain, Trouble, REFUSED};
use std::ffi::OsStr;

/// A JSON object for a file, as a line.
pub fn object(file: &OsStr, fields: Vec<(&'static str, Json)>) -> String {
    let mut all = vec![("file", file.to_string_lossy().as_ref().into())];
    all.extend(fields);
    Json::Object(all).line()
}

pub fn put_object(file: &OsStr, fields: Vec<(&'static str, Json)>) -> Result<(), Trouble> {
    put(object(file, fields).as_bytes())
}

/// A refusal where something was to be written: nothing is, and standard output is kept for what was asked for.
pub fn refused(args: &Args, file: &OsStr, refusal: Refusal) -> Result<u8, Trouble> {
    refused_at(args, file, &shown(file), refusal, &advised(refusal))
}

/// The same of a place within a file, and in other words.
pub fn refused_at(args: &Args, file: &OsStr, place: &str, refusal: Refusal, told: &str) -> Result<u8, Trouble> {
    complain(&format!("{place}: {told}"));
    if args.json() {
        let mut fields = vec![("refused", true.into())];
        fields.extend(refusal_fields(refusal));
        put_object(file, fields)?;
    }
    Ok(REFUSED)
}
