//! What the program says: answers on standard output, everything else on standard error.
use crate::args::Settings;
use crate::descriptors;
use crate::json::Object;
use crate::line::Line;
use crate::refusal::Refusal;
use std::fmt;
use std::fs::File;
use std::io::{self, BufWriter, Write};

/// Standard output, of which every failure is noticed. It is opened with the first byte that is written: an answer without words needs none.
#[derive(Default)]
struct Stream(Option<File>);

impl Write for Stream {
    fn write(&mut self, bytes: &[u8]) -> io::Result<usize> {
        if self.0.is_none() {
            self.0 = Some(descriptors::output()?);
        }
        self.0.as_mut().map_or(Ok(0), |file| file.write(bytes))
    }

    fn flush(&mut self) -> io::Result<()> {
        Ok(())
    }
}

/// So much is gathered before it is written.
const GATHERED: usize = 1 << 16;

/// The way out, as the options have it.
pub struct Out {
    to: BufWriter<Stream>,
    line: Line,
    pub is_json: bool,
    pub is_quiet: bool,
}

impl Out {
    pub fn new(settings: &Settings) -> Out {
        let (to, line) = (BufWriter::with_capacity(GATHERED, Stream::default()), Line::default());
        Out { to, line, is_json: settings.json, is_quiet: settings.quiet }
    }

    /// An answer: a line of words or of JSON, or nothing with --quiet.
    pub fn answer(&mut self, words: impl fmt::Display, object: impl FnOnce() -> Object) -> io::Result<()> {
        match (self.is_quiet, self.is_json) {
            (true, _) => Ok(()),
            (false, true) => self.object(object()),
            (false, false) => writeln!(self.to, "{words}"),
        }
    }

    /// The same with a line that is put together piece by piece, where there may be very many of them.
    pub fn line(&mut self, put: impl FnOnce(&mut Line), object: impl FnOnce() -> Object) -> io::Result<()> {
        match (self.is_quiet, self.is_json) {
            (true, _) => Ok(()),
            (false, true) => self.object(object()),
            (false, false) => {
                put(self.line.clear());
                self.to.write_all(self.line.end())
            }
        }
    }

    /// Something beside the answers that only people read: JSON has no line of it.
    pub fn remark(&mut self, words: impl fmt::Display) -> io::Result<()> {
        match self.is_quiet || self.is_json {
            true => Ok(()),
            false => writeln!(self.to, "{words}"),
        }
    }

    /// A line of JSON.
    pub fn object(&mut self, object: Object) -> io::Result<()> {
        self.data(object.end().as_bytes())
    }

    /// No answer, as JSON; in words it is said on standard error.
    pub fn refusal(&mut self, refusal: &Refusal) -> io::Result<()> {
        if !self.is_json || self.is_quiet {
            return Ok(());
        }
        self.object(refusal.object())
    }

    /// What was asked for as bytes.
    pub fn data(&mut self, bytes: &[u8]) -> io::Result<()> {
        self.to.write_all(bytes)
    }

    pub fn flush(&mut self) -> io::Result<()> {
        self.to.flush()
    }

    /// What is not written by now is not to be written any more: nobody reads it.
    pub fn discard(&mut self) {
        let _ = std::mem::replace(&mut self.to, BufWriter::new(Stream::default())).into_parts();
    }

    /// Something that is worth knowing beside an answer, on standard error.
    pub fn note(&self, words: impl fmt::Display) {
        if !self.is_quiet {
            say(words);
        }
    }
}

/// A message on standard error. If even that can't be written, the exit status still says it.
pub fn say(words: impl fmt::Display) {
    let line = format!("packed-refs: {words}\n");
    let _ = io::stderr().write_all(line.as_bytes());
}
