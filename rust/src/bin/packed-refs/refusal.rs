//! No answer, and why: in words, and in the parts that --json tells.
use crate::input::Input;
use crate::json::Object;
use crate::progress::Progress;
use crate::rule;
use crate::words::{on_line, Quoted};
use packed_refs::{Error, IdKind, Reason, Table};
use std::ffi::OsString;
use std::io;
use std::os::unix::ffi::OsStrExt;

/// Why there is no answer.
#[derive(Default)]
pub struct Refusal {
    /// For a person: what is the matter, and what to do.
    pub words: String,
    /// The library's number, where it was the library that refused.
    pub number: Option<u32>,
    /// The file, as it was named.
    pub file: Option<OsString>,
    /// The name that was asked for.
    pub name: Option<Vec<u8>>,
    pub line: Option<u64>,
    pub byte: Option<usize>,
    /// What stands there.
    pub text: Option<Box<Text>>,
}

/// A line as a refusal keeps it: not all of it if it is very long.
pub struct Text {
    start: Vec<u8>,
    length: usize,
}

impl Refusal {
    /// Of the program itself.
    pub fn new(words: impl Into<String>) -> Refusal {
        Refusal { words: words.into(), ..Refusal::default() }
    }

    /// Of the library, about a table with ids of a kind: which file, which line, which number, what to do. `about` stands before the number.
    pub fn of(kind: IdKind, input: &Input, about: &str, error: &Error) -> Refusal {
        Refusal::at(input, &Fault::of(kind, input, error), about, error)
    }

    /// The same where the fault is in words already.
    fn at(input: &Input, fault: &Fault, about: &str, error: &Error) -> Refusal {
        let words = format!("{}: {about}{}. {}", on_line(&input.name, fault.line), fault.words, error.what_to_do());
        let (number, file) = (Some(error.number()), Some(input.given.clone()));
        let has_text = error.line().is_some() || error.reason() == Reason::NoHeader;
        let text = has_text.then(|| Box::new(Text { start: error.text().to_vec(), length: error.text_len() }));
        Refusal { words, number, file, line: fault.line, byte: error.place_in_file(), text, name: None }
    }

    /// Of the library, about a name that is asked for: what is wrong with the name, or with the table, whose first fault that is.
    pub fn of_name(kind: IdKind, input: &Input, fault: Option<&Fault>, name: &[u8], error: &Error) -> Refusal {
        let about = format!("no answer for {}: ", Quoted(name));
        let refusal = match (error.place_in_file(), fault) {
            (Some(_), Some(fault)) => Refusal::at(input, fault, &about, error),
            (Some(_), None) => Refusal::of(kind, input, &about, error),
            (None, _) => {
                let rule = if error.reason() == Reason::BadName { format!(": {}", rule::broken(name)) } else { String::new() };
                let words = format!("{about}{}{rule}. {}", error.what_is_wrong(), error.what_to_do());
                Refusal { number: Some(error.number()), ..Refusal::new(words) }
            }
        };
        Refusal { name: Some(name.to_vec()), ..refusal }
    }

    /// The line of JSON.
    pub fn object(&self) -> Object {
        Object::new("none")
            .number("status", 2u32)
            .optional(self.number, |object, number| object.number("number", number))
            .optional(self.file.as_deref(), |object, file| object.bytes("file", file.as_bytes()))
            .optional(self.name.as_deref(), |object, name| object.bytes("name", name))
            .optional(self.line, |object, line| object.number("line", line))
            .optional(self.byte, |object, byte| object.count("byte", byte))
            .optional(self.text.as_ref(), |object, text| object.bytes("text", &text.start).count("length", text.length))
            .text("message", &self.words)
    }
}

/// The first fault of a table in words. A bad line may be long: who tells of it often keeps this.
pub struct Fault {
    line: Option<u64>,
    words: String,
}

impl Fault {
    pub fn of(kind: IdKind, input: &Input, error: &Error) -> Fault {
        Fault { line: error.line().or_else(|| line_of(kind, input, error)), words: fault_of(input, error) }
    }

    /// Where it is, and what.
    pub fn told(&self, input: &Input) -> String {
        format!("{}: {}", on_line(&input.name, self.line), self.words)
    }
}

/// The line of a fault whose place alone is told: the library walks there.
fn line_of(kind: IdKind, input: &Input, error: &Error) -> Option<u64> {
    let place = error.place_in_file()?;
    let _progress = Progress::new(format!("finding the line in {}", input.name), None);
    Table::new(kind, &input.bytes).line_at(place)
}

/// What is wrong with a table, and what a bad line reads; of a record whose name is bad, the name too, and the rule that it breaks. The number of the line
/// is said elsewhere.
fn fault_of(input: &Input, error: &Error) -> String {
    let (Some(place), Some(_)) = (error.place_in_file(), error.line()) else { return error.what_is_wrong() };
    let line = &input.bytes[place..place + error.text_len()];
    let wrong = format!("{}; the record starts at byte {place}; it reads {}", error.reason(), Quoted(line));
    if error.reason() != Reason::BadRecordName {
        return wrong;
    }
    let name = rule::name_in(line);
    format!("{wrong}; its name is {}: {}", Quoted(name), rule::broken(name))
}

/// Why a command ends early.
pub enum Trouble {
    /// Wrong usage, in words.
    Usage(String),
    Refused(Refusal),
    /// Whoever read our output has gone.
    Gone,
}

impl Trouble {
    pub fn refused(words: impl Into<String>) -> Trouble {
        Trouble::Refused(Refusal::new(words))
    }

    pub fn usage<T>(words: impl Into<String>) -> Result<T, Trouble> {
        Err(Trouble::Usage(words.into()))
    }
}

impl From<Refusal> for Trouble {
    fn from(refusal: Refusal) -> Trouble {
        Trouble::Refused(refusal)
    }
}

impl From<io::Error> for Trouble {
    /// Only writing to standard output is left to `?`; what else can fail says what it was.
    fn from(error: io::Error) -> Trouble {
        match error.kind() {
            io::ErrorKind::BrokenPipe => Trouble::Gone,
            _ => Trouble::refused(format!("standard output can't be written: {error}")),
        }
    }
}
