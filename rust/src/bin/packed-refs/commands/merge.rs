//! `merge`: a table with edits.
use super::Ended;
use crate::args::Settings;
use crate::edit_lines::{are_not_output, EditLines, EditList};
use crate::input::Input;
use crate::json::Object;
use crate::kind::judge;
use crate::nested;
use crate::output::{say, Out};
use crate::progress::Progress;
use crate::refusal::{Refusal, Trouble};
use crate::save::Guarded;
use crate::words::{count, shown};
use crate::Status;
use packed_refs::{merge, Checked, Error, IdKind, Merged, Rights, Table};
use std::ffi::{OsStr, OsString};
use std::os::unix::ffi::OsStrExt;

pub fn run(settings: &Settings, words: &[OsString], out: &mut Out) -> Ended {
    let [old, edits] = words else { return Trouble::usage("merge wants OLD EDITS [-o NEW]") };
    let new = settings.output.as_deref();
    if old == "-" && edits == "-" {
        return Trouble::usage("OLD and EDITS can't both be standard input");
    }
    if new.is_some_and(|new| new == "-") {
        return Trouble::usage("-o wants a file; leave it out for standard output");
    }
    if settings.json && new.is_none() {
        return Trouble::usage("merge --json wants -o NEW: standard output can't be both the new file and lines of JSON");
    }
    let input = Input::other(edits)?;
    if let Some(new) = new {
        are_not_output(&input, edits, new)?;
    }
    let lines = EditLines::read(&input)?;
    // The lock is taken before the old file is read: no one else's edits are lost in between.
    let lock = new.map(Guarded::take).transpose()?;
    let table = read_old(settings, old, lock.as_ref(), out)?;
    let merge = Merge { settings, new, lines: &lines, table: &table };
    merge.run(lock, out)
}

/// An old file that is not there counts as empty where the new one is not there either: so a table begins. Everywhere else a slip of the keyboard would
/// cost the records that are there.
fn read_old(settings: &Settings, old: &OsStr, lock: Option<&Guarded>, out: &Out) -> Result<Input, Trouble> {
    match (Input::table_if_there(old, settings)?, lock) {
        (Some(input), _) => Ok(input),
        (None, Some(lock)) if !lock.is_there() => {
            out.note(format_args!("{} is not there, and neither is the new file: a table begins", shown(old)));
            Ok(Input::none(old))
        }
        (None, Some(_)) => Err(Trouble::refused(format!(
            "{} is not there, but the file to be written is: its records would be lost. Name the right old file.",
            shown(old)
        ))),
        (None, None) => Err(Trouble::refused(format!("{} is not there. See whether the right file was named.", shown(old)))),
    }
}

struct Merge<'a> {
    settings: &'a Settings,
    new: Option<&'a OsStr>,
    lines: &'a EditLines<'a>,
    table: &'a Input,
}

impl Merge<'_> {
    fn run(&self, lock: Option<Guarded>, out: &mut Out) -> Ended {
        let judged = judge(self.settings.kind, self.table)?;
        // A table without records has no kind of its own: then the edits' ids say it.
        let kind = match &judged.check {
            Ok(table) if table.is_empty() => self.settings.kind.or(self.lines.kind).unwrap_or(judged.kind),
            _ => judged.kind,
        };
        let list = self.lines.list(kind)?;
        let progress = Progress::new(format!("merging {}", self.table.name), None);
        let merged = merge(&self.table.bytes, &list.edits);
        drop(progress);
        match merged.map_err(|error| self.refusal(kind, &list, &error))? {
            Merged::New(bytes) => {
                let old = judged.check.map_err(|error| self.refusal(kind, &list, &error))?;
                self.write(kind, &old, &bytes, lock, out)
            }
            Merged::NothingToDo => self.nothing_to_do(judged.check.map_or(0, |table| table.len()), out),
            Merged::RemoveFile => self.remove(lock, out),
        }
    }

    /// What was made is checked once more before it is written, and counted.
    fn write(&self, kind: IdKind, old: &Checked<'_>, bytes: &[u8], lock: Option<Guarded>, out: &mut Out) -> Ended {
        let unfit = |error: Error| Trouble::refused(format!("the new file does not pass the check, and nothing was written: {error}"));
        let table = Table::check(kind, bytes).map_err(unfit)?;
        if !self.settings.nested_names {
            nested::refuse(self.lines, old, &table)?;
        }
        match lock {
            Some(lock) => {
                let rights = if self.settings.other_rights { Rights::GoOn } else { Rights::Keep };
                let lost = lock.replace(bytes, rights)?;
                let lost = (!lost.is_nothing()).then(|| lost.to_string());
                if let Some(lost) = &lost {
                    say(format_args!("the new file has not all rights of the old one: {lost}"));
                }
                let object = self.object("written", Status::Done, 0, table.len());
                self.tell(object.optional(lost.as_deref(), |object, lost| object.text("rights", lost)), out)?;
            }
            None => out.data(bytes)?,
        }
        out.flush()?;
        out.note(format_args!("the new file has {}", count(table.len(), "record")));
        Ok(Status::Done)
    }

    fn nothing_to_do(&self, records: usize, out: &mut Out) -> Ended {
        self.tell(self.object("nothing to do", Status::Absent, 13, records), out)?;
        out.note(format_args!(
            "number 13: nothing to do: no update, and no delete names a record of the old file; nothing was written. The old file has {}",
            count(records, "record")
        ));
        Ok(Status::Absent)
    }

    fn remove(&self, lock: Option<Guarded>, out: &mut Out) -> Ended {
        match lock {
            Some(lock) => {
                lock.remove()?;
                self.tell(self.object("removed", Status::Done, 14, 0), out)?;
                out.note("number 14: no record remains: there is no file now");
            }
            None => out.note(
                "number 14: no record remains, and so there is no new file. If the list was meant to delete every record, -o removes the old one \
                 under its lock",
            ),
        }
        Ok(Status::Done)
    }

    fn object(&self, answer: &str, status: Status, number: u32, records: usize) -> Object {
        let object = Object::new(answer).number("status", status as u32).number("number", number);
        object.optional(self.new, |object, new| object.bytes("file", new.as_bytes())).count("records", records)
    }

    /// The line of JSON; in words only the count is told, on standard error.
    fn tell(&self, object: Object, out: &mut Out) -> Result<(), Trouble> {
        if !out.is_json || out.is_quiet {
            return Ok(());
        }
        let written = out.object(object).and_then(|()| out.flush());
        written.map_err(|error| Trouble::refused(format!("the merge is done, but standard output can't be written: {error}")))
    }

    fn refusal(&self, kind: IdKind, list: &EditList, error: &Error) -> Refusal {
        match error.place_in_edits() {
            Some(place) => self.lines.refusal(list, place, error),
            None => Refusal::of(kind, self.table, "", error),
        }
    }
}
