//! `check`: whether a table passes, and how many records it has.
use super::Ended;
use crate::args::Settings;
use crate::beside;
use crate::input::Input;
use crate::json::Object;
use crate::kind::judge;
use crate::output::Out;
use crate::refusal::{Refusal, Trouble};
use crate::words::count;
use crate::Status;
use std::ffi::OsString;
use std::os::unix::ffi::OsStrExt;

pub fn run(settings: &Settings, words: &[OsString], out: &mut Out) -> Ended {
    let [file] = words else { return Trouble::usage("check wants one FILE") };
    let input = Input::table(file, settings)?;
    let judged = judge(settings.kind, &input)?;
    let table = judged.check.map_err(|error| Refusal::of(judged.kind, &input, "", &error))?;
    let passed = || {
        let object = Object::new("passed").number("status", 0u32).number("number", 0u32).bytes("file", input.given.as_bytes());
        object
            .count("records", table.len())
            .optional((!table.is_empty()).then_some(judged.kind), |o, kind| o.count("digits", kind.digits()))
    };
    out.answer(format_args!("0 passed: {}", count(table.len(), "record")), passed)?;
    out.flush()?;
    beside::loose_references(&input, out);
    Ok(Status::Done)
}
