//! The command-line program. It reads files, calls the library, and says the answer in words and as an exit status.
#![deny(unsafe_code)]

mod args;
mod beside;
mod commands;
#[allow(unsafe_code)]
mod descriptors;
mod edit_lines;
mod help;
mod input;
mod items;
mod json;
mod kind;
mod line;
mod names;
mod nested;
mod output;
mod progress;
mod refusal;
mod rule;
mod save;
#[allow(unsafe_code)]
mod signals;
mod words;

use args::{Asked, Settings};
use commands::Ended;
use output::{say, Out};
use refusal::Trouble;
use std::ffi::OsString;
use std::process::ExitCode;

/// The exit status; a later one is worse.
#[derive(Clone, Copy, Debug, PartialEq, Eq, PartialOrd, Ord)]
pub enum Status {
    Done = 0,
    Absent = 1,
    Refused = 2,
    Usage = 64,
}

fn main() -> ExitCode {
    let args: Vec<OsString> = std::env::args_os().skip(1).collect();
    // A defect of this program is no answer either.
    let status = std::panic::catch_unwind(|| run(&args)).unwrap_or(Status::Refused);
    ExitCode::from(status as u8)
}

fn run(args: &[OsString]) -> Status {
    match args::read(args) {
        Ok(Asked::Help(None)) => told(&help::all()),
        Ok(Asked::Help(Some(command))) => told(&help::of(command)),
        Ok(Asked::Version) => told(concat!("packed-refs ", env!("CARGO_PKG_VERSION"), "\n")),
        Ok(Asked::Run(command, settings, words)) => {
            let mut out = Out::new(&settings);
            let ended = (command.run)(&settings, &words, &mut out).and_then(|status| out.flush().map(|()| status).map_err(Trouble::from));
            end(ended, &mut out)
        }
        Err(words) => end(Trouble::usage(words), &mut Out::new(&Settings::default())),
    }
}

/// Text that was asked for.
fn told(text: &str) -> Status {
    let mut out = Out::new(&Settings::default());
    let written = out.data(text.as_bytes()).and_then(|()| out.flush());
    end(written.map(|()| Status::Done).map_err(Trouble::from), &mut out)
}

/// Says why a command ended early, if it did.
fn end(ended: Ended, out: &mut Out) -> Status {
    match ended {
        Ok(status) => status,
        Err(Trouble::Usage(words)) => {
            say(words);
            say("try --help");
            Status::Usage
        }
        Err(Trouble::Refused(refusal)) => {
            // If this can't be written, the status still says it.
            let _ = out.refusal(&refusal).and_then(|()| out.flush());
            say(&refusal.words);
            Status::Refused
        }
        Err(Trouble::Gone) => Status::Refused,
    }
}
