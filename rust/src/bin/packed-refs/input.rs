//! Files and standard input, read whole or refused.
use crate::args::Settings;
use crate::descriptors;
use crate::progress::Progress;
use crate::refusal::{Refusal, Trouble};
use crate::words::shown;
use packed_refs::{Error, OpenError, OpenTrouble, Opener, QUIET};
use std::ffi::{OsStr, OsString};
use std::fs::{File, Metadata};
use std::io::{self, Read};
use std::os::unix::fs::MetadataExt;
use std::path::{Path, PathBuf};
use std::time::SystemTime;

pub struct Input {
    /// As it was named: a path, or `-` for standard input.
    pub given: OsString,
    /// What messages call it.
    pub name: String,
    pub bytes: Vec<u8>,
    /// How the file stood before it was read, if it is a regular one with a path.
    before: Option<State>,
}

/// So often a table is read that may still be in the making.
const ATTEMPTS: u32 = 5;

impl Input {
    /// A table: a file, or standard input where it is called `-`. One of zero bytes is refused unless the options say that it may be empty: neither Git
    /// nor a merge leaves one, but a copy that is under way does, and a pipe from a program that failed.
    pub fn table(path: &OsStr, settings: &Settings) -> Result<Input, Trouble> {
        Input::table_for(path, settings, |_| Ok(true))
    }

    /// A table for a question whose answer may hang on the end of the file. Where it does, a file that was written to just now is waited for, and read
    /// anew if it changes meanwhile.
    pub fn table_for(path: &OsStr, settings: &Settings, needs_all: impl Fn(&Input) -> Result<bool, Trouble>) -> Result<Input, Trouble> {
        Input::find(path, settings, needs_all)?.ok_or_else(|| not_there(path).into())
    }

    /// A table, or nothing where there is no such file.
    pub fn table_if_there(path: &OsStr, settings: &Settings) -> Result<Option<Input>, Trouble> {
        Input::find(path, settings, |_| Ok(true))
    }

    fn find(path: &OsStr, settings: &Settings, needs_all: impl Fn(&Input) -> Result<bool, Trouble>) -> Result<Option<Input>, Trouble> {
        for _ in 0..ATTEMPTS {
            let input = match Input::read(path, settings.may_be_empty) {
                Err(error) if matches!(error.trouble(), OpenTrouble::NotThere) => return Ok(None),
                read => read.map_err(|error| refusal(path, &error))?,
            };
            if (input.stands() && !input.is_young()) || !needs_all(&input)? || input.is_settled() {
                return Ok(Some(input));
            }
        }
        Err(changes(path).into())
    }

    /// Something else than a table: what zero bytes mean is its reader's to say.
    pub fn other(path: &OsStr) -> Result<Input, Trouble> {
        Input::read(path, true).map_err(|error| refusal(path, &error).into())
    }

    /// No file at all.
    pub fn none(path: &OsStr) -> Input {
        Input::new(path, Vec::new())
    }

    /// Bytes under a name.
    pub fn new(path: &OsStr, bytes: Vec<u8>) -> Input {
        Input { given: path.to_os_string(), name: shown(path), bytes, before: None }
    }

    fn read(path: &OsStr, may_be_empty: bool) -> Result<Input, OpenError> {
        let name = shown(path);
        let before = std::fs::metadata(path).ok().filter(|_| path != "-").and_then(|about| State::of(&about));
        let progress = Progress::new(format!("reading {name}"), None);
        // whether a young one is waited for hangs on the question: `find` sees to it
        let opener = Opener::new().may_be_empty(may_be_empty).may_be_young(true).progress(|done, total| progress.at_of(done, total));
        let bytes = if path == "-" { opener.bytes_from(Standard::open(), path)? } else { opener.bytes(path)? };
        drop(progress);
        Ok(Input { before, ..Input::new(path, bytes) })
    }

    fn is_young(&self) -> bool {
        self.before.is_some_and(|before| before.is_young())
    }

    /// Whether it stands as it stood before it was read.
    fn stands(&self) -> bool {
        let now = self.path().and_then(|path| std::fs::metadata(path).ok());
        now.and_then(|about| State::of(&about)) == self.before
    }

    /// Whether it still does so after a while.
    fn is_settled(&self) -> bool {
        std::thread::sleep(QUIET);
        self.stands()
    }

    /// Where it is, unless it is standard input.
    fn path(&self) -> Option<&Path> {
        (self.given != "-").then(|| Path::new(&self.given))
    }

    /// Whether it is that very file, by whatever name, or from standard input.
    pub fn is_file(&self, path: &Path) -> bool {
        let same = |about: io::Result<Metadata>| match (about, std::fs::metadata(path)) {
            (Ok(one), Ok(other)) => (one.dev(), one.ino()) == (other.dev(), other.ino()),
            _ => false,
        };
        match self.path() {
            Some(own) => same(std::fs::metadata(own)),
            None => same(descriptors::input().and_then(|file| file.metadata())),
        }
    }

    /// Where the file really is, links followed.
    pub fn real_path(&self) -> Option<PathBuf> {
        self.path().and_then(|path| path.canonicalize().ok())
    }
}

/// Standard input. Where it is a regular file it is seen at the end whether the file was changed meanwhile; it can't be read anew.
enum Standard {
    Plain(File),
    Regular(File, State),
    Failed(Option<io::Error>),
}

/// Which regular file it is, and what changes if it is written to.
#[derive(Clone, Copy, PartialEq, Eq)]
struct State {
    place: (u64, u64),
    size: u64,
    modified: SystemTime,
}

impl State {
    fn of(about: &Metadata) -> Option<State> {
        let modified = about.modified().ok()?;
        about.is_file().then(|| State { place: (about.dev(), about.ino()), size: about.size(), modified })
    }

    /// Whether it was written to just now, or by a clock that is ahead of ours.
    fn is_young(&self) -> bool {
        !self.modified.elapsed().is_ok_and(|age| age >= QUIET)
    }
}

impl Standard {
    fn open() -> Standard {
        let opened = descriptors::input().and_then(|file| file.metadata().map(|about| (file, State::of(&about))));
        match opened {
            Ok((file, None)) => Standard::Plain(file),
            Ok((file, Some(state))) => Standard::Regular(file, state),
            Err(error) => Standard::Failed(Some(error)),
        }
    }
}

impl Read for Standard {
    fn read(&mut self, bytes: &mut [u8]) -> io::Result<usize> {
        match self {
            Standard::Plain(file) => file.read(bytes),
            Standard::Regular(file, before) => {
                let got = file.read(bytes)?;
                if got == 0 && !bytes.is_empty() {
                    if before.is_young() {
                        std::thread::sleep(QUIET);
                    }
                    if State::of(&file.metadata()?) != Some(*before) {
                        return Err(io::Error::other("it was changed while it was read; ask again"));
                    }
                }
                Ok(got)
            }
            Standard::Failed(error) => Err(error.take().unwrap_or_else(|| io::Error::other("it could not be opened"))),
        }
    }
}

fn not_there(path: &OsStr) -> Refusal {
    let words = format!(
        "{} is not there. Do not send. See whether the right file was named; an older one in its place lacks every name since.",
        shown(path)
    );
    Refusal { file: Some(path.to_os_string()), ..Refusal::new(words) }
}

fn changes(path: &OsStr) -> Refusal {
    let words = format!("{} changes while it is read, each time anew. Do not send; ask again.", shown(path));
    Refusal { file: Some(path.to_os_string()), ..Refusal::new(words) }
}

fn refusal(path: &OsStr, error: &OpenError) -> Refusal {
    let name = shown(path);
    let (words, number) = match error.trouble() {
        OpenTrouble::NotThere => (format!("{name} is not there. Do not send. See whether the right file was named."), None),
        OpenTrouble::Unreadable(error) => (format!("{name} can't be read: {error}. Do not send."), None),
        OpenTrouble::Empty => (
            format!(
                "{name} has zero bytes. Do not send. Neither Git nor a merge leaves such a file: a copy may be under way or may have failed, or the \
                 program before a pipe. Ask again, and if it stays so, restore the table with every record that was in it. Only before the first \
                 record is --may-be-empty right."
            ),
            None,
        ),
        OpenTrouble::Changed => return changes(path),
        OpenTrouble::NoMemory(bytes) => (format!("{name}: the memory does not suffice for {bytes} bytes. Do not send."), None),
        OpenTrouble::Refused(error) => (format!("{name}: {error}"), Some(Error::number(error))),
        other => (format!("{name} can't be read: {other:?}. Do not send."), None),
    };
    Refusal { words, number, file: Some(path.to_os_string()), ..Refusal::default() }
}
