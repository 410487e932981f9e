//! `report`: every damaged line, every name out of order, what to do about them, and totals.
use super::Ended;
use crate::args::Settings;
use crate::beside;
use crate::input::Input;
use crate::items::{all_items, damaged_object, put_bad_part, put_text, start_of};
use crate::json::Object;
use crate::kind::kind_of;
use crate::line::Line;
use crate::output::Out;
use crate::progress::Progress;
use crate::refusal::{Refusal, Trouble};
use crate::words::count;
use crate::Status;
use packed_refs::{header, Damage, Error, IdKind, Reason, Record};
use std::collections::BTreeMap;
use std::ffi::OsString;
use std::io;
use std::os::unix::ffi::OsStrExt;

pub fn run(settings: &Settings, words: &[OsString], out: &mut Out) -> Ended {
    let [file] = words else { return Trouble::usage("report wants one FILE") };
    let input = Input::table(file, settings)?;
    let kind = kind_of(settings.kind, &input)?;
    let mut report = Report::new(&input, out);
    report.all(kind)?;
    let status = report.end()?;
    out.flush()?;
    beside::loose_references(&input, out);
    Ok(status)
}

struct Report<'a, 'o> {
    input: &'a Input,
    out: &'o mut Out,
    records: usize,
    damaged: usize,
    unsorted: usize,
    /// What was met, by its number.
    met: BTreeMap<u32, Reason>,
}

impl<'a, 'o> Report<'a, 'o> {
    fn new(input: &'a Input, out: &'o mut Out) -> Report<'a, 'o> {
        Report { input, out, records: 0, damaged: 0, unsorted: 0, met: BTreeMap::new() }
    }

    fn all(&mut self, kind: IdKind) -> Result<(), Trouble> {
        if let Err(error) = header(&self.input.bytes) {
            self.no_header(&error)?;
        }
        let progress = Progress::beside_output(format!("reporting on {}", self.input.name), self.input.bytes.len());
        let mut items = all_items(kind, &self.input.bytes).map_err(|error| Refusal::of(kind, self.input, "", &error))?;
        let mut last: &[u8] = b"";
        loop {
            let line = items.line();
            match items.next() {
                None => return Ok(()),
                Some(Ok(record)) => {
                    self.records += 1;
                    if record.name <= last {
                        self.out_of_order(line, &record)?;
                    }
                    last = record.name;
                }
                Some(Err(damage)) => self.damage(&damage)?,
            }
            progress.at(items.place());
        }
    }

    fn no_header(&mut self, error: &Error) -> io::Result<()> {
        self.damaged += 1;
        let text = &self.input.bytes[..error.text_len()];
        let number = self.meet(error.reason());
        let put = |line: &mut Line| put_text(line.number(number.into()).text(" no header: line 1, byte 0: "), text);
        self.out.line(put, || {
            let object = Object::new("no header").number("number", number).count("line", 1).count("byte", 0);
            object.bytes("text", start_of(text)).count("length", text.len())
        })
    }

    fn out_of_order(&mut self, line: Option<u64>, record: &Record<'_>) -> io::Result<()> {
        self.unsorted += 1;
        let number = self.meet(Reason::Unsorted);
        let put = |words: &mut Line| {
            put_place(words.number(number.into()).text(" out of order: "), line, record.place);
            words.text(": ").escaped(record.name);
        };
        self.out.line(put, || {
            let object = Object::new("out of order").number("number", number);
            let object = object.optional(line, |object, line| object.number("line", line));
            object.count("byte", record.place).bytes("name", record.name)
        })
    }

    fn damage(&mut self, damage: &Damage<'_>) -> io::Result<()> {
        self.damaged += 1;
        let number = self.meet(damage.reason);
        let put = |words: &mut Line| {
            put_place(words.number(number.into()).text(" damaged: "), damage.line, damage.place);
            put_bad_part(words.text(", "), damage);
            put_text(words.text(": "), damage.text);
        };
        self.out.line(put, || damaged_object(damage))
    }

    /// The number of a reason, which is remembered.
    fn meet(&mut self, reason: Reason) -> u32 {
        let number = reason.number();
        self.met.insert(number, reason);
        number
    }

    /// For each number that was met what to do about it, and the totals.
    fn end(&mut self) -> Result<Status, Trouble> {
        for (number, reason) in &self.met {
            let row = reason.row();
            self.out.remark(format_args!("what to do about {number}: {} {}", row.sender, row.person))?;
        }
        let (records, damaged, unsorted, bytes) = (self.records, self.damaged, self.unsorted, self.input.bytes.len());
        let status = if damaged + unsorted == 0 { Status::Done } else { Status::Refused };
        let words = format!("total: {}, {damaged} damaged, {unsorted} out of order, {}", count(records, "record"), count(bytes, "byte"));
        self.out.answer(words, || {
            let object =
                Object::new("total").number("status", status as u32).bytes("file", self.input.given.as_bytes()).count("records", records);
            object.count("damaged", damaged).count("unsorted", unsorted).count("bytes", bytes)
        })?;
        Ok(status)
    }
}

/// The line, which a walk over a file always knows, and the place.
fn put_place(words: &mut Line, line: Option<u64>, place: usize) {
    if let Some(line) = line {
        words.text("line ").number(line).text(", ");
    }
    words.text("byte ").number(place as u64);
}
