//! The names that are asked for: those on the command line, then those of a file.
use crate::args::Settings;
use crate::input::Input;
use crate::refusal::{Refusal, Trouble};
use std::ffi::{OsStr, OsString};
use std::os::unix::ffi::OsStrExt;

/// The names, in the order in which they are asked for. The file's last name has its end too: without it the list may have been cut short, and a name
/// cut short may be another one's.
pub fn all<'a>(words: &'a [OsString], file: Option<&'a Input>, settings: &Settings) -> Result<Vec<&'a [u8]>, Trouble> {
    let end = if settings.nul { 0 } else { b'\n' };
    let bytes = file.map_or(&[][..], |file| &file.bytes);
    let mut names: Vec<&[u8]> = Vec::new();
    let room = words.len() + bytes.iter().filter(|b| **b == end).count();
    names.try_reserve_exact(room).map_err(|_| Trouble::refused("the memory does not suffice for the names. Do not send."))?;
    names.extend(words.iter().map(|word| word.as_bytes()));
    let mut rest = bytes;
    while let Some(at) = rest.iter().position(|b| *b == end) {
        let name = &rest[..at];
        names.push(if settings.nul { name } else { name.strip_suffix(b"\r").unwrap_or(name) });
        rest = &rest[at + 1..];
    }
    let Some(file) = file else { return Ok(names) };
    if !rest.is_empty() {
        return Err(cut(file, if settings.nul { "NUL" } else { "line feed" }).into());
    }
    if names.len() == words.len() {
        return Err(Refusal {
            file: Some(file.given.clone()),
            ..Refusal::new(format!("{}: there is no name in it: nothing was asked", file.name))
        }
        .into());
    }
    Ok(names)
}

fn cut(file: &Input, end: &str) -> Refusal {
    let line = file.bytes.iter().filter(|b| **b == b'\n').count() as u64 + 1;
    let words = format!("{}, line {line}: no {end} ends the last name: the list may have been cut short, and nothing was asked", file.name);
    Refusal { file: Some(file.given.clone()), line: Some(line), ..Refusal::new(words) }
}

/// The file of --names, if there is one. It and the table can't both be standard input.
pub fn file(table: &OsStr, settings: &Settings) -> Result<Option<Input>, Trouble> {
    match settings.names.as_deref() {
        Some(names) if names == "-" && table == "-" => Trouble::usage("FILE and the file of --names can't both be standard input"),
        Some(names) => Input::other(names).map(Some),
        None if settings.nul => Trouble::usage("-z says how the names of --names end, and there is no --names"),
        None => Ok(None),
    }
}
