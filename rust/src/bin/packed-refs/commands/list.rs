//! `list`: the records of a table.
use super::Ended;
use crate::args::Settings;
use crate::beside;
use crate::input::Input;
use crate::items::{all_items, damaged_object, put_bad_part, put_text};
use crate::json::Object;
use crate::kind::judge;
use crate::line::Line;
use crate::output::Out;
use crate::progress::Progress;
use crate::refusal::{Refusal, Trouble};
use crate::words::on_line;
use crate::Status;
use packed_refs::{Checked, Error, Escaped, IdKind, Record};
use std::ffi::OsString;
use std::io::{self, BufWriter, Write};
use std::os::unix::ffi::OsStrExt;

/// In a file that passes the check the records are found by the prefix. In another one all of it is gone through, so that nothing that can be read is
/// left out, and the status says that it may not be all. A reader that goes early, as `head` does, changes nothing about the status.
pub fn run(settings: &Settings, words: &[OsString], out: &mut Out) -> Ended {
    let (file, prefix) = match words {
        [file] => (file, &b""[..]),
        [file, prefix] => (file, prefix.as_bytes()),
        _ => return Trouble::usage("list wants a FILE and at most one PREFIX"),
    };
    if settings.json && settings.nul {
        return Trouble::usage("list --json ends its lines by LF: leave out -z");
    }
    let input = Input::table(file, settings)?;
    let judged = judge(settings.kind, &input)?;
    let kind = judged.kind;
    let mut listing = Listing { input: &input, kind, prefix, nul: settings.nul, out, listed: 0 };
    match judged.check {
        Ok(table) => match listing.checked(&table) {
            Err(Trouble::Gone) => {
                listing.out.discard();
                Ok(Status::Done)
            }
            ended => ended.map(|()| Status::Done),
        },
        Err(error) => {
            listing.damaged()?;
            Err(Refusal::of(kind, &input, "only what can be read is listed: ", &error).into())
        }
    }
}

struct Listing<'a> {
    input: &'a Input,
    kind: IdKind,
    prefix: &'a [u8],
    nul: bool,
    out: &'a mut Out,
    listed: usize,
}

impl Listing<'_> {
    fn checked(&mut self, table: &Checked<'_>) -> Result<(), Trouble> {
        let records = table.with_prefix(self.prefix).map_err(|error| self.too_large(&error))?;
        let progress = Progress::beside_output(format!("listing {}", self.input.name), self.input.bytes.len());
        for record in records {
            self.record(&record)?;
            progress.at(record.place);
        }
        drop(progress);
        if self.out.is_json {
            let end = Object::new("listed").number("status", 0u32).number("number", 0u32).bytes("file", self.input.given.as_bytes());
            self.out.object(end.count("records", self.listed))?;
        }
        self.out.flush()?;
        beside::loose_references(self.input, self.out);
        Ok(())
    }

    /// Damage can be everywhere: its words are gathered, as the records are. If they can't be written, the status still says it; if nobody reads the
    /// records, nobody is told.
    fn damaged(&mut self) -> Result<(), Trouble> {
        let mut err = BufWriter::new(io::stderr());
        let ended = self.all(&mut err).and_then(|()| Ok(self.out.flush()?));
        match ended {
            Err(Trouble::Gone) => drop(err.into_parts()),
            _ => drop(err.flush()),
        }
        ended
    }

    fn all(&mut self, err: &mut impl Write) -> Result<(), Trouble> {
        let mut words = Line::default();
        for item in all_items(self.kind, &self.input.bytes).map_err(|error| self.too_large(&error))? {
            match item {
                Ok(record) if record.name.starts_with(self.prefix) => self.record(&record)?,
                Ok(_) => {}
                Err(damage) => {
                    words.clear().text("packed-refs: ").text(&on_line(&self.input.name, damage.line));
                    put_bad_part(words.text(": not listed: number ").number(damage.reason.number().into()).text(": "), &damage);
                    put_text(words.text("; it starts at byte ").number(damage.place as u64).text(": "), damage.text);
                    let _ = err.write_all(words.end());
                    if self.out.is_json {
                        self.out.object(damaged_object(&damage))?;
                    }
                }
            }
        }
        Ok(())
    }

    /// The name, the id, and the peeled id if there is one: what stands behind `update` in a list of edits.
    fn record(&mut self, record: &Record<'_>) -> io::Result<()> {
        self.listed += 1;
        if self.out.is_json {
            let object = Object::new("record").bytes("name", record.name).bytes("id", record.id);
            let object = object.optional(record.peeled, |object, peeled| object.bytes("peeled", peeled));
            return self.out.object(object.count("byte", record.place));
        }
        if self.nul {
            self.out.data(record.name)?;
        } else {
            self.out.data(Escaped(record.name).to_string().as_bytes())?;
        }
        for id in [Some(record.id), record.peeled].into_iter().flatten() {
            self.out.data(b" ")?;
            self.out.data(id)?;
        }
        self.out.data(if self.nul { b"\0" } else { b"\n" })
    }

    /// Only a prefix can be too large: the file is not, since it was read.
    fn too_large(&self, error: &Error) -> Refusal {
        Refusal::of(self.kind, self.input, "the prefix: ", error)
    }
}
