//! A file read whole or refused, and kept with its check. A file that could not be read must never look like a short one.
use crate::numbers::Reason;
use crate::{ask, ask_many, Asked, Checked, Error, Escaped, Found, Header, IdKind, Table, LARGEST_INPUT};
use std::fmt;
use std::fs::{self, File, Metadata};
use std::io::{self, Read};
use std::os::unix::ffi::OsStrExt;
use std::os::unix::fs::MetadataExt;
use std::path::{Path, PathBuf};
use std::time::Duration;

/// So much is read between two reports of how far it is.
const PIECE: usize = 1 << 20;

/// So often a file is read that changes while it is read.
const ATTEMPTS: u32 = 5;

/// So long is waited between two attempts.
const PAUSE: Duration = Duration::from_millis(50);

/// A file that was written to so shortly ago may still be in the making: whoever writes it in place may only be held up, and at the end of a line that does
/// not show in the bytes.
pub const QUIET: Duration = Duration::from_millis(50);

/// Why a file could not be opened as a table.
#[derive(Debug)]
pub struct OpenError {
    path: PathBuf,
    trouble: OpenTrouble,
}

/// What was the matter with a file.
#[derive(Debug)]
#[non_exhaustive]
pub enum OpenTrouble {
    /// There is no file of that name.
    NotThere,
    /// The system could not open or read it.
    Unreadable(io::Error),
    /// It has no bytes at all, and it was not said that it may have none.
    Empty,
    /// It changed each time that it was read.
    Changed,
    /// There is not enough memory for so many bytes.
    NoMemory(u64),
    /// The library refuses it: number 17 on reading, and on checking what the check gives.
    Refused(Error),
}

impl OpenError {
    fn new(path: &Path, trouble: OpenTrouble) -> OpenError {
        OpenError { path: path.to_path_buf(), trouble }
    }

    /// What was the matter.
    #[must_use]
    pub fn trouble(&self) -> &OpenTrouble {
        &self.trouble
    }

    /// The file.
    #[must_use]
    pub fn path(&self) -> &Path {
        &self.path
    }
}

impl fmt::Display for OpenError {
    fn fmt(&self, f: &mut fmt::Formatter<'_>) -> fmt::Result {
        let path = Escaped(self.path.as_os_str().as_bytes());
        match &self.trouble {
            OpenTrouble::NotThere => {
                write!(f, "{path} is not there. Do not send. See whether the right file was named; an older one in its place lacks every name since.")
            }
            OpenTrouble::Unreadable(error) => write!(f, "{path} can't be read: {error}. Do not send."),
            OpenTrouble::Empty => write!(
                f,
                "{path} has zero bytes. Do not send. Neither Git nor a merge leaves such a file: a copy may be under way or may have failed. Ask again, \
                 and if it stays so, restore the table with every record that was in it. Only before the first record may it be said to be empty."
            ),
            OpenTrouble::Changed => {
                write!(f, "{path} was changed while it was read, {ATTEMPTS} times in a row. Do not send; ask again.")
            }
            OpenTrouble::NoMemory(len) => write!(f, "{path}: there is not enough memory for its {len} bytes. Do not send."),
            OpenTrouble::Refused(error) => write!(f, "{path}: {error}"),
        }
    }
}

impl std::error::Error for OpenError {
    fn source(&self) -> Option<&(dyn std::error::Error + 'static)> {
        match &self.trouble {
            OpenTrouble::Unreadable(error) => Some(error),
            OpenTrouble::Refused(error) => Some(error),
            _ => None,
        }
    }
}

/// How far the reading is: so many bytes, of so many where the file says its length.
type Seen<'p> = Box<dyn FnMut(u64, Option<u64>) + 'p>;

/// How a file is opened.
///
/// The whole file is read. One that changes meanwhile (its size, its time of modification, or which file the path leads to) is read anew, a few times.
/// One that was written to just now is looked at again after a while ([`QUIET`]), and if it changed, that counts as meanwhile.
/// One of zero bytes is refused, unless it was said that it may be empty; one over the size limit is number 17, and is not read.
///
/// ```
/// use packed_refs::{IdKind, Opener, OpenTrouble};
/// # let dir = std::env::temp_dir().join(format!("packed-refs-opener-{}", std::process::id()));
/// # std::fs::create_dir_all(&dir).unwrap();
/// # let path = dir.join("table");
/// std::fs::write(&path, b"").unwrap();
/// let error = Opener::new().open(IdKind::Sha1, &path).unwrap_err();
/// assert!(matches!(error.trouble(), OpenTrouble::Empty));
///
/// // where a table without records is expected, as before the first confirmation
/// let table = Opener::new().may_be_empty(true).check(IdKind::Sha1, &path).unwrap();
/// assert!(table.table().is_empty());
/// # std::fs::remove_dir_all(&dir).unwrap();
/// ```
#[derive(Default)]
#[must_use = "nothing is opened yet"]
pub struct Opener<'p> {
    may_be_empty: bool,
    may_be_young: bool,
    seen: Option<Seen<'p>>,
}

impl<'p> Opener<'p> {
    /// A file that is there and has bytes.
    pub fn new() -> Opener<'p> {
        Opener::default()
    }

    /// Whether a file of zero bytes is taken.
    pub fn may_be_empty(self, may_be_empty: bool) -> Opener<'p> {
        Opener { may_be_empty, ..self }
    }

    /// Whether a file that was written to just now is taken without a further look: for who asks only what is true of a part of a table, too, as that a
    /// name is charted. [`ask`] may then call a table damaged that is only being written.
    pub fn may_be_young(self, may_be_young: bool) -> Opener<'p> {
        Opener { may_be_young, ..self }
    }

    /// Something that is told how far the reading is: the bytes read, and the file's length if it has one.
    pub fn progress(self, seen: impl FnMut(u64, Option<u64>) + 'p) -> Opener<'p> {
        Opener { seen: Some(Box::new(seen)), ..self }
    }

    /// The bytes of a file.
    pub fn bytes(mut self, path: impl AsRef<Path>) -> Result<Vec<u8>, OpenError> {
        let path = path.as_ref();
        let read = self.read(path).and_then(|bytes| self.taken(bytes));
        read.map_err(|trouble| OpenError::new(path, trouble))
    }

    /// All that can be read from something that is no named file, as standard input; `name` is what messages call it. It is not known whether it
    /// changes.
    pub fn bytes_from(mut self, from: impl Read, name: impl AsRef<Path>) -> Result<Vec<u8>, OpenError> {
        let read = self.read_all(from, None).and_then(|bytes| self.taken(bytes));
        read.map_err(|trouble| OpenError::new(name.as_ref(), trouble))
    }

    /// The bytes of a file as a table that nobody checked.
    pub fn open(self, kind: IdKind, path: impl AsRef<Path>) -> Result<TableFile, OpenError> {
        Ok(TableFile { kind, bytes: self.bytes(path)? })
    }

    /// The bytes of a file as a table that passed the check.
    pub fn check(self, kind: IdKind, path: impl AsRef<Path>) -> Result<CheckedFile, OpenError> {
        let path = path.as_ref();
        self.open(kind, path)?.check().map_err(|error| OpenError::new(path, OpenTrouble::Refused(error)))
    }

    fn taken(&self, bytes: Vec<u8>) -> Result<Vec<u8>, OpenTrouble> {
        if bytes.is_empty() && !self.may_be_empty {
            return Err(OpenTrouble::Empty);
        }
        Ok(bytes)
    }

    fn read(&mut self, path: &Path) -> Result<Vec<u8>, OpenTrouble> {
        for attempt in 0..ATTEMPTS {
            if attempt > 0 {
                std::thread::sleep(PAUSE);
            }
            if let Some(bytes) = self.read_once(path)? {
                return Ok(bytes);
            }
        }
        Err(OpenTrouble::Changed)
    }

    /// The bytes, or nothing where the file changed meanwhile.
    fn read_once(&mut self, path: &Path) -> Result<Option<Vec<u8>>, OpenTrouble> {
        let mut file = File::open(path).map_err(unread)?;
        let before = file.metadata().map_err(unread)?;
        if !before.is_file() {
            return self.read_all(file, None).map(Some);
        }
        let bytes = self.read_all(&mut file, Some(before.len()))?;
        // A length of 0 says nothing: files of /proc have it.
        let is_whole = before.len() == 0 || before.len() == bytes.len() as u64;
        if !is_whole || !stands(path, &before) {
            return Ok(None);
        }
        if !self.may_be_young && is_young(&before) {
            std::thread::sleep(QUIET);
            return Ok(stands(path, &before).then_some(bytes));
        }
        Ok(Some(bytes))
    }

    /// Reads to the end, or beyond the length that the file gave: it grew then, perhaps for ever. A length that is too large is refused unread.
    fn read_all(&mut self, mut from: impl Read, length: Option<u64>) -> Result<Vec<u8>, OpenTrouble> {
        let largest = LARGEST_INPUT as u64;
        let too_large = || OpenTrouble::Refused(Error::bare(Reason::TooLarge.number()));
        if length.is_some_and(|length| length > largest) {
            return Err(too_large());
        }
        let mut bytes = Vec::new();
        if let Some(length) = length {
            bytes.try_reserve_exact(length as usize + 1).map_err(|_| OpenTrouble::NoMemory(length))?;
        }
        loop {
            // Room for the next piece is asked for here, so that the reading itself never has to.
            if bytes.capacity() - bytes.len() < PIECE && !length.is_some_and(|length| bytes.len() as u64 <= length) {
                bytes.try_reserve(PIECE).map_err(|_| OpenTrouble::NoMemory((bytes.len() + PIECE) as u64))?;
            }
            let piece = (bytes.capacity() - bytes.len()).min(PIECE);
            let got = from.by_ref().take(piece as u64).read_to_end(&mut bytes).map_err(unread)?;
            if bytes.len() as u64 > largest {
                return Err(too_large());
            }
            if let Some(seen) = &mut self.seen {
                seen(bytes.len() as u64, length);
            }
            if got == 0 || length.is_some_and(|length| length != 0 && bytes.len() as u64 > length) {
                return Ok(bytes);
            }
        }
    }
}

fn unread(error: io::Error) -> OpenTrouble {
    match error.kind() {
        io::ErrorKind::NotFound => OpenTrouble::NotThere,
        _ => OpenTrouble::Unreadable(error),
    }
}

/// Whether the path leads to the same file as before, which was not written to since. Another file in its place, or none, is a change too.
fn stands(path: &Path, before: &Metadata) -> bool {
    fs::metadata(path).is_ok_and(|now| state(&now) == state(before))
}

/// Which file it is, and what changes if it is written to.
fn state(about: &Metadata) -> (u64, u64, u64, i64, i64) {
    (about.dev(), about.ino(), about.size(), about.mtime(), about.mtime_nsec())
}

/// Whether it was written to just now, or by a clock that is ahead of ours.
fn is_young(about: &Metadata) -> bool {
    about.modified().is_ok_and(|modified| !modified.elapsed().is_ok_and(|age| age >= QUIET))
}

/// A table with its bytes, which nobody has checked. Had by [`Opener::open`], or made of bytes that were read elsewhere.
#[must_use]
pub struct TableFile {
    kind: IdKind,
    bytes: Vec<u8>,
}

impl TableFile {
    /// A table of bytes that were read elsewhere.
    pub fn new(kind: IdKind, bytes: impl Into<Vec<u8>>) -> TableFile {
        TableFile { kind, bytes: bytes.into() }
    }

    /// The lookup that can be trusted on any bytes: [`ask`](crate::ask).
    pub fn ask(&self, name: impl AsRef<[u8]>) -> Result<Asked<'_>, Error> {
        ask(self.kind, &self.bytes, name)
    }

    /// The same of many names at once: [`ask_many`](crate::ask_many).
    #[must_use]
    pub fn ask_many(&self, names: &[impl AsRef<[u8]>]) -> Vec<Result<Asked<'_>, Error>> {
        ask_many(self.kind, &self.bytes, names)
    }

    /// The bytes with their check, or what the check gives.
    pub fn check(self) -> Result<CheckedFile, Error> {
        let checked = Table::check(self.kind, &self.bytes)?;
        let (header, count) = (checked.header(), checked.len());
        Ok(CheckedFile { file: self, header, count })
    }

    /// The table in these bytes.
    pub fn table(&self) -> Table<'_> {
        Table::new(self.kind, &self.bytes)
    }

    /// The bytes alone.
    #[must_use]
    pub fn into_bytes(self) -> Vec<u8> {
        self.bytes
    }
}

/// How long it is, and not what stands in it.
impl fmt::Debug for TableFile {
    fn fmt(&self, f: &mut fmt::Formatter<'_>) -> fmt::Result {
        f.debug_struct("TableFile").field("kind", &self.kind).field("bytes", &self.bytes.len()).finish()
    }
}

/// A table that passed the check, with its bytes: one value to keep and to ask. Had by [`Opener::check`] or [`TableFile::check`], and not changed
/// since.
///
/// ```
/// use packed_refs::{Found, IdKind, TableFile};
/// let file = b"1111111111111111111111111111111111111111 refs/s/a\n";
/// let table = TableFile::new(IdKind::Sha1, file.to_vec()).check().unwrap();
/// assert!(matches!(table.find("refs/s/a"), Ok(Found::Charted(_))));
/// assert_eq!(table.find("refs/s/b"), Ok(Found::Absent));
/// assert_eq!(table.table().len(), 1);
/// ```
#[derive(Debug)]
#[must_use]
pub struct CheckedFile {
    file: TableFile,
    header: Header,
    count: usize,
}

impl CheckedFile {
    /// Looks a name up: [`Checked::find`].
    pub fn find(&self, name: impl AsRef<[u8]>) -> Result<Found<'_>, Error> {
        self.table().find(name)
    }

    /// The checked table in these bytes.
    pub fn table(&self) -> Checked<'_> {
        Table::known(self.file.kind, &self.file.bytes, self.header, self.count)
    }

    /// The bytes alone.
    #[must_use]
    pub fn into_bytes(self) -> Vec<u8> {
        self.file.bytes
    }
}
