//! The words of the command line: a command, options anywhere, and what the command works on.
use crate::commands::{Command, COMMANDS};
use crate::words::Quoted;
use packed_refs::IdKind;
use std::ffi::{OsStr, OsString};
use std::os::unix::ffi::OsStrExt;

/// What the options say.
#[derive(Default)]
pub struct Settings {
    /// How long the ids are, where that is not left to the records.
    pub kind: Option<IdKind>,
    /// Whether a table of zero bytes is one without records.
    pub may_be_empty: bool,
    /// Absent is said only of a table of so many records.
    pub records: Option<usize>,
    /// A file of names to ask for.
    pub names: Option<OsString>,
    /// Whether NUL ends a name, or a record of a listing, in place of LF.
    pub nul: bool,
    pub json: bool,
    pub quiet: bool,
    /// Where a merge writes.
    pub output: Option<OsString>,
    /// Whether a merge may make a name a directory of another.
    pub nested_names: bool,
    /// Whether a merge goes on where the new file can't have the group, the mode or the owner of the old one.
    pub other_rights: bool,
}

/// What is wanted.
pub enum Asked {
    /// Help, for a command or for all.
    Help(Option<&'static Command>),
    Version,
    Run(&'static Command, Settings, Vec<OsString>),
}

/// An option: how it is written, who knows it, what it does. The help is made of the same table.
pub struct Choice {
    pub long: &'static str,
    pub short: Option<u8>,
    /// What its value is called, if it takes one.
    pub value: Option<&'static str>,
    /// The commands that know it; an empty list means all.
    pub of: &'static [&'static str],
    pub about: &'static str,
    set: fn(&mut Settings, &OsStr) -> Result<(), String>,
}

const TABLES: &[&str] = &["check", "lookup", "list", "report", "merge"];

pub const CHOICES: &[Choice] = &[
    Choice {
        long: "sha1",
        short: None,
        value: None,
        of: &[],
        about: "ids have 40 digits. Without --sha1 and --sha256 the records that can be read say it",
        set: |settings, _| settings.set_kind(IdKind::Sha1),
    },
    Choice {
        long: "sha256",
        short: None,
        value: None,
        of: &[],
        about: "ids have 64 digits",
        set: |settings, _| settings.set_kind(IdKind::Sha256),
    },
    Choice {
        long: "may-be-empty",
        short: None,
        value: None,
        of: TABLES,
        about: "a table of zero bytes is one without records. Without it such a table is no answer",
        set: |settings, _| on(&mut settings.may_be_empty),
    },
    Choice {
        long: "records",
        short: None,
        value: Some("N"),
        of: &["lookup"],
        about: "absent is said only of a table of at least N records; charted is said as ever",
        set: |settings, value| {
            let number = value.to_str().filter(|text| text.bytes().all(|b| b.is_ascii_digit())).and_then(|text| text.parse().ok());
            settings.records = Some(number.ok_or(format!("--records wants a number, not {}", Quoted(value.as_bytes())))?);
            Ok(())
        },
    },
    Choice {
        long: "names",
        short: None,
        value: Some("FILE"),
        of: &["lookup"],
        about: "asks for the names in FILE, or in standard input for -, one a line",
        set: |settings, value| {
            settings.names = Some(value.to_os_string());
            Ok(())
        },
    },
    Choice {
        long: "null",
        short: Some(b'z'),
        value: None,
        of: &["lookup", "list"],
        about: "lookup: a NUL ends each name of --names, not LF. list: a NUL ends each record, whose bytes stand as they are",
        set: |settings, _| on(&mut settings.nul),
    },
    Choice {
        long: "output",
        short: Some(b'o'),
        value: Some("NEW"),
        of: &["merge"],
        about: "replaces NEW as a whole, under the lock NEW.lock as Git does, and removes it if no record remains",
        set: |settings, value| {
            settings.output = Some(value.to_os_string());
            Ok(())
        },
    },
    Choice {
        long: "allow-nested-names",
        short: None,
        value: None,
        of: &["merge"],
        about: "a name may become a directory of another, as refs/a of refs/a/b, which Git can't clone",
        set: |settings, _| on(&mut settings.nested_names),
    },
    Choice {
        long: "allow-other-rights",
        short: None,
        value: None,
        of: &["merge"],
        about: "goes on where NEW can't keep its group, mode or owner, and says so",
        set: |settings, _| on(&mut settings.other_rights),
    },
    Choice {
        long: "json",
        short: None,
        value: None,
        of: &[],
        about: "answers as lines of JSON, as JSON.md has them; merge then wants -o",
        set: |settings, _| on(&mut settings.json),
    },
    Choice {
        long: "quiet",
        short: Some(b'q'),
        value: None,
        of: &[],
        about: "no answer in words, no notes and no counts: the exit status says it. What list and merge are to write is written, and why there is no \
                answer is still said on standard error",
        set: |settings, _| on(&mut settings.quiet),
    },
];

fn on(flag: &mut bool) -> Result<(), String> {
    *flag = true;
    Ok(())
}

impl Settings {
    fn set_kind(&mut self, kind: IdKind) -> Result<(), String> {
        match self.kind.replace(kind) {
            Some(other) if other != kind => Err("--sha1 and --sha256 can't both be".to_string()),
            _ => Ok(()),
        }
    }
}

/// What the words of the command line ask for, or what is wrong with them.
pub fn read(args: &[OsString]) -> Result<Asked, String> {
    let mut reading = Reading::default();
    let mut args = args.iter();
    while let Some(arg) = args.next() {
        reading.arg(arg, &mut args)?;
    }
    reading.end()
}

/// What was read so far.
#[derive(Default)]
struct Reading {
    settings: Settings,
    used: Vec<&'static Choice>,
    words: Vec<OsString>,
    /// Behind `--` no word is an option.
    is_closed: bool,
    help: bool,
    version: bool,
}

impl Reading {
    fn arg<'a>(&mut self, arg: &'a OsString, rest: &mut impl Iterator<Item = &'a OsString>) -> Result<(), String> {
        match arg.as_bytes() {
            _ if self.is_closed => self.words.push(arg.clone()),
            b"--" => self.is_closed = true,
            b"--help" => self.help = true,
            b"--version" => self.version = true,
            [b'-', b'-', long @ ..] => return self.long(long, rest),
            [b'-', first, more @ ..] => return self.short(*first, more, rest),
            _ => self.words.push(arg.clone()),
        }
        Ok(())
    }

    /// `--name` or `--name=value`.
    fn long<'a>(&mut self, long: &[u8], rest: &mut impl Iterator<Item = &'a OsString>) -> Result<(), String> {
        let mut parts = long.splitn(2, |b| *b == b'=');
        let name = parts.next().unwrap_or_default();
        let Some(choice) = CHOICES.iter().find(|choice| choice.long.as_bytes() == name) else {
            return Err(no_option(&[b"--", name].concat()));
        };
        match (choice.value, parts.next()) {
            (None, Some(_)) => Err(format!("--{} takes no value", choice.long)),
            (_, given) => self.take(choice, given.map(OsStr::from_bytes), rest),
        }
    }

    /// A letter, and more behind it: the value if it takes one, else more letters.
    fn short<'a>(&mut self, letter: u8, more: &[u8], rest: &mut impl Iterator<Item = &'a OsString>) -> Result<(), String> {
        match letter {
            b'h' => self.help = true,
            b'V' => self.version = true,
            _ => {
                let choice = CHOICES.iter().find(|choice| choice.short == Some(letter)).ok_or_else(|| no_option(&[b'-', letter]))?;
                if choice.value.is_some() {
                    return self.take(choice, (!more.is_empty()).then(|| OsStr::from_bytes(more)), rest);
                }
                self.take(choice, None, rest)?;
            }
        }
        match more {
            [] => Ok(()),
            [next, more @ ..] => self.short(*next, more, rest),
        }
    }

    /// An option with the value that was given with it, or else the next word.
    fn take<'a>(
        &mut self,
        choice: &'static Choice,
        given: Option<&OsStr>,
        rest: &mut impl Iterator<Item = &'a OsString>,
    ) -> Result<(), String> {
        let value = match (choice.value, given) {
            (None, _) => OsStr::new(""),
            (Some(_), Some(given)) => given,
            (Some(value), None) => rest.next().ok_or(format!("--{} wants {value}", choice.long))?,
        };
        if choice.value.is_some() && self.used.iter().any(|used| used.long == choice.long) {
            return Err(format!("--{} is given twice", choice.long));
        }
        self.used.push(choice);
        (choice.set)(&mut self.settings, value)
    }

    fn end(self) -> Result<Asked, String> {
        let mut words = self.words.into_iter();
        let Some(name) = words.next() else {
            return match (self.help, self.version) {
                (true, _) => Ok(Asked::Help(None)),
                (false, true) => Ok(Asked::Version),
                (false, false) => Err("a command is missing".to_string()),
            };
        };
        if name == "help" {
            let about = words.next().map(|name| command(&name)).transpose()?;
            return if words.next().is_none() { Ok(Asked::Help(about)) } else { Err("help wants at most one COMMAND".to_string()) };
        }
        let command = command(&name)?;
        if self.help {
            return Ok(Asked::Help(Some(command)));
        }
        if self.version {
            return Ok(Asked::Version);
        }
        if let Some(foreign) = self.used.iter().find(|choice| !choice.is_of(command.name)) {
            return Err(format!("{} has no option --{}", command.name, foreign.long));
        }
        Ok(Asked::Run(command, self.settings, words.collect()))
    }
}

impl Choice {
    /// Whether a command knows it.
    pub fn is_of(&self, command: &str) -> bool {
        self.of.is_empty() || self.of.contains(&command)
    }
}

fn no_option(word: &[u8]) -> String {
    format!("there is no option {}; a name or a file that begins with - stands behind --", Quoted(word))
}

fn command(name: &OsStr) -> Result<&'static Command, String> {
    let found = COMMANDS.iter().find(|command| command.name.as_bytes() == name.as_bytes());
    found.ok_or_else(|| format!("there is no command {}", Quoted(name.as_bytes())))
}
