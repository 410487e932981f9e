//! The commands: a row for each, and a module.
mod check;
mod list;
mod lookup;
mod loose;
mod merge;
mod report;

use crate::args::Settings;
use crate::output::Out;
use crate::refusal::Trouble;
use crate::Status;
use std::ffi::OsString;

/// How a command ends.
pub type Ended = Result<Status, Trouble>;

pub struct Command {
    pub name: &'static str,
    /// What it works on.
    pub words: &'static str,
    pub about: &'static str,
    pub run: fn(&Settings, &[OsString], &mut Out) -> Ended,
}

pub const COMMANDS: &[Command] = &[
    Command {
        name: "check",
        words: "FILE",
        about: "whether every line can be read and the names are in order, and how many records there are",
        run: check::run,
    },
    Command {
        name: "lookup",
        words: "FILE NAME..",
        about: "whether each name is in the file: charted, absent, or no answer",
        run: lookup::run,
    },
    Command {
        name: "list",
        words: "FILE [PREFIX]",
        about: "the records, or those whose name begins with PREFIX: name, id, peeled id",
        run: list::run,
    },
    Command {
        name: "report",
        words: "FILE",
        about: "every damaged line with its line number, place, bad part and text, what to do about it, then totals",
        run: report::run,
    },
    Command {
        name: "merge",
        words: "OLD EDITS [-o NEW]",
        about: "the old file with the edits, to NEW or to standard output",
        run: merge::run,
    },
    Command { name: "loose", words: "FILE", about: "what a loose reference file says: an id, or another name", run: loose::run },
];
