//! `lookup`: of each name whether it is charted, absent, or can't be answered for.
use super::Ended;
use crate::args::Settings;
use crate::beside;
use crate::input::Input;
use crate::json::Object;
use crate::kind::{judge, Judged};
use crate::names;
use crate::output::{say, Out};
use crate::progress::Progress;
use crate::refusal::{Fault, Refusal, Trouble};
use crate::words::{count, Quoted};
use crate::Status;
use packed_refs::{ask_many, Asked, Error, Escaped, Found, Reason, Record};
use std::ffi::OsString;

pub fn run(settings: &Settings, words: &[OsString], out: &mut Out) -> Ended {
    let Some((file, named)) = words.split_first() else { return Trouble::usage("lookup wants a FILE and at least one NAME") };
    if named.is_empty() && settings.names.is_none() {
        return Trouble::usage("lookup wants at least one NAME, or --names");
    }
    let list = names::file(file, settings)?;
    let names = names::all(named, list.as_ref(), settings)?;
    let input = Input::table_for(file, settings, |input| hangs_on_the_end(settings, input, &names))?;
    let judged = judge(settings.kind, &input)?;
    let mut asking = Asking::new(settings, &input, &judged, out);
    asking.ask(&names)?;
    let (worst, some_absent) = (asking.worst, asking.some_absent);
    if some_absent {
        out.flush()?;
        beside::loose_references(&input, out);
    }
    Ok(worst)
}

/// Whether an answer may hang on what is still to be written: that a name is absent, and that the table does not pass the check.
fn hangs_on_the_end(settings: &Settings, input: &Input, names: &[&[u8]]) -> Result<bool, Trouble> {
    let judged = judge(settings.kind, input)?;
    Ok(judged.check.map_or(true, |table| names.iter().any(|name| table.find(name) == Ok(Found::Absent))))
}

struct Asking<'a, 'o> {
    input: &'a Input,
    judged: &'a Judged<'a>,
    /// The table's first fault, if it has one.
    fault: Option<Fault>,
    /// Absent is said only of a table of so many records.
    least: usize,
    out: &'o mut Out,
    worst: Status,
    some_absent: bool,
    /// Whether it was said that what is charted stands in a file that does not pass the check.
    is_warned: bool,
}

impl<'a, 'o> Asking<'a, 'o> {
    fn new(settings: &Settings, input: &'a Input, judged: &'a Judged<'a>, out: &'o mut Out) -> Asking<'a, 'o> {
        let fault = judged.check.as_ref().err().map(|error| Fault::of(judged.kind, input, error));
        let least = settings.records.unwrap_or(0);
        Asking { input, judged, fault, least, out, worst: Status::Done, some_absent: false, is_warned: false }
    }

    /// In a table that passes each name is a few probes. In another one all names are asked for at once.
    fn ask(&mut self, names: &[&[u8]]) -> Result<(), Trouble> {
        let progress = Progress::new(format!("asking {}", self.input.name), Some(names.len()));
        match &self.judged.check {
            Ok(table) => {
                for (done, name) in names.iter().enumerate() {
                    progress.at(done);
                    self.tell(name, table.find(name).map(Asked::from))?;
                }
            }
            Err(_) => {
                for (name, told) in names.iter().zip(ask_many(self.judged.kind, &self.input.bytes, names)) {
                    self.tell(name, told)?;
                }
            }
        }
        Ok(())
    }

    fn tell(&mut self, name: &[u8], told: Result<Asked<'_>, Error>) -> Result<(), Trouble> {
        let status = match told {
            Ok(Asked::Charted(record)) => {
                self.charted(name, &record, None)?;
                Status::Done
            }
            Ok(Asked::ChartedInDamagedFile { record, fault }) => {
                self.charted(name, &record, Some(fault))?;
                self.warn()?;
                Status::Done
            }
            Ok(Asked::Absent) => self.absent(name)?,
            Err(error) => self.refuse(Refusal::of_name(self.judged.kind, self.input, self.fault.as_ref(), name, &error))?,
        };
        self.worst = self.worst.max(status);
        Ok(())
    }

    fn charted(&mut self, name: &[u8], record: &Record<'_>, fault: Option<Reason>) -> Result<(), Trouble> {
        let peeled = record.peeled.map_or(String::new(), |peeled| format!(" peeled {}", Escaped(peeled)));
        let words = format_args!("0 charted {} {} byte {}{peeled}", Escaped(name), Escaped(record.id), record.place);
        Ok(self.out.answer(words, || {
            let object = Object::new("charted").number("status", 0u32).number("number", 0u32).bytes("name", name).bytes("id", record.id);
            let object = object.optional(record.peeled, |object, peeled| object.bytes("peeled", peeled)).count("byte", record.place);
            object.optional(fault, |object, fault| object.number("fault", fault.number()))
        })?)
    }

    /// Says once, behind the first such name and for all of them, that the file does not pass the check: with --quiet too, since the exit status does not
    /// say it.
    fn warn(&mut self) -> Result<(), Trouble> {
        let (Some(fault), false) = (&self.fault, self.is_warned) else { return Ok(()) };
        self.is_warned = true;
        self.out.flush()?;
        say(charted_in_damaged_file(&fault.told(self.input)));
        Ok(())
    }

    fn absent(&mut self, name: &[u8]) -> Result<Status, Trouble> {
        let has = self.judged.check.as_ref().map_or(0, |table| table.len());
        if has < self.least {
            return self.refuse(too_few(self.input, name, has, self.least));
        }
        let object = || Object::new("absent").number("status", 1u32).number("number", 5u32).bytes("name", name);
        self.out.answer(format_args!("5 absent {}", Escaped(name)), object)?;
        beside::full_name(name, self.out);
        self.some_absent = true;
        Ok(Status::Absent)
    }

    /// Behind what was answered so far.
    fn refuse(&mut self, refusal: Refusal) -> Result<Status, Trouble> {
        self.out.refusal(&refusal)?;
        self.out.flush()?;
        say(&refusal.words);
        Ok(Status::Refused)
    }
}

fn charted_in_damaged_file(first_fault: &str) -> String {
    format!(
        "every name that is charted here stands in a file that does not pass the check: its record may itself be what the damage made. Stop, do not \
         send, and call someone, who runs report on the file. Its first fault: {first_fault}"
    )
}

fn too_few(input: &Input, name: &[u8], has: usize, least: usize) -> Refusal {
    let words = format!(
        "{}: no answer for {}: the file has {}, and --records asks for {least}: it may have been cut, or an older one may stand in its place. Do not \
         send. Find out where the records went; a smaller N would only hide it.",
        input.name,
        Quoted(name),
        count(has, "record")
    );
    Refusal { file: Some(input.given.clone()), name: Some(name.to_vec()), ..Refusal::new(words) }
}
