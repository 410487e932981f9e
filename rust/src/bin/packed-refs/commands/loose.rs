//! `loose`: what a loose reference file says.
use super::Ended;
use crate::args::Settings;
use crate::input::Input;
use crate::json::Object;
use crate::kind::{option, other};
use crate::output::Out;
use crate::refusal::{Refusal, Trouble};
use crate::Status;
use packed_refs::{loose, Error, Escaped, IdKind, Loose, Reason};
use std::ffi::OsString;
use std::os::unix::ffi::OsStrExt;

pub fn run(settings: &Settings, words: &[OsString], out: &mut Out) -> Ended {
    let [file] = words else { return Trouble::usage("loose wants one FILE") };
    let input = Input::other(file)?;
    let said = read(settings.kind, &input)?;
    let object = |answer: &str| Object::new(answer).number("status", 0u32).number("number", 0u32).bytes("file", input.given.as_bytes());
    match said {
        Loose::Id(id) => out.answer(format_args!("0 id {}", Escaped(id)), || object("id").bytes("id", id))?,
        Loose::Symbolic(name) => out.answer(format_args!("0 symbolic {}", Escaped(name)), || object("symbolic").bytes("name", name))?,
    }
    Ok(Status::Done)
}

/// The content itself says how long its id is, unless an option does.
fn read(forced: Option<IdKind>, input: &Input) -> Result<Loose<'_>, Refusal> {
    let kind = forced.unwrap_or(IdKind::Sha1);
    let error = match loose(kind, &input.bytes) {
        Ok(said) => return Ok(said),
        Err(error) => error,
    };
    match (loose(other(kind), &input.bytes), forced) {
        (Ok(said), None) => Ok(said),
        (Ok(_), Some(kind)) => Err(wrong_kind(input, kind, &error)),
        (Err(_), _) => Err(Refusal::of(kind, input, "", &error)),
    }
}

fn wrong_kind(input: &Input, kind: IdKind, error: &Error) -> Refusal {
    debug_assert_eq!(error.reason(), Reason::UnreadableLoose);
    let words = format!("{}: it holds an id of {} digits. No answer: leave out {}.", input.name, other(kind).digits(), option(kind));
    Refusal { number: Some(error.number()), file: Some(input.given.clone()), ..Refusal::new(words) }
}
