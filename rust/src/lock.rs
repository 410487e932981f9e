//! A file replaced as a whole: whenever the program is stopped, the old one stands there or the new one.
//!
//! The new file is written beside the old one as NAME.lock, forced to disk, and renamed over it; then the directory is forced to disk. NAME.lock is
//! also the lock, as it is for Git: whoever finds it there leaves the file alone. It is taken before the old file is read, so that no one else's edits
//! are lost in between.
use crate::{merge, Edits, Error, Escaped, Merged, OpenError, OpenTrouble, Opener};
use std::ffi::OsString;
use std::fmt;
use std::fs::{self, File, Metadata, OpenOptions, Permissions};
use std::io::{self, Write};
use std::os::unix::ffi::OsStrExt;
use std::os::unix::fs::{fchown, MetadataExt, PermissionsExt};
use std::path::{Path, PathBuf};
use std::time::{Duration, Instant};

/// So long someone else's lock is waited for, as Git does (`core.packedRefsTimeout`).
pub const LOCK_WAIT: Duration = Duration::from_secs(1);

/// So much is written between two reports of how far it is.
const PIECE: usize = 1 << 20;

/// Why a file was not replaced. It prints as a sentence.
#[derive(Debug)]
pub struct SaveError {
    path: PathBuf,
    trouble: SaveTrouble,
}

/// What was the matter with the writing.
#[derive(Debug)]
#[non_exhaustive]
pub enum SaveTrouble {
    /// Someone else holds the lock, and held it for as long as was waited.
    Locked(PathBuf),
    /// What stands there is no regular file: a directory, a device, a pipe.
    NoRegularFile,
    /// The old file's rights would be lost. Nothing was written.
    Rights(Lost),
    /// The system could not do it. The words say what, and how the file stands now.
    System(&'static str, io::Error),
    /// The old file can't be read.
    Old(OpenError),
    /// The merge was refused.
    Refused(Error),
}

impl SaveError {
    fn new(path: &Path, trouble: SaveTrouble) -> SaveError {
        SaveError { path: path.to_path_buf(), trouble }
    }

    /// What was the matter.
    #[must_use]
    pub fn trouble(&self) -> &SaveTrouble {
        &self.trouble
    }

    /// The file that was to be replaced.
    #[must_use]
    pub fn path(&self) -> &Path {
        &self.path
    }
}

impl fmt::Display for SaveError {
    fn fmt(&self, f: &mut fmt::Formatter<'_>) -> fmt::Result {
        let path = shown(&self.path);
        match &self.trouble {
            SaveTrouble::Locked(lock) => write!(
                f,
                "{} is there: another program is writing {path}, or was stopped while it did. {path} is whole, and nothing was written. Try again. \
                 Only if no program writes it, here or on another machine, remove the lock: removed under one that does, its edits are lost.",
                shown(lock)
            ),
            SaveTrouble::NoRegularFile => write!(f, "{path} is no regular file: it can't be replaced"),
            SaveTrouble::Rights(lost) => write!(f, "{path} is as it was, since the new file would lose rights: {lost}"),
            SaveTrouble::System(what, error) => write!(f, "{path} {what}: {error}"),
            SaveTrouble::Old(error) => error.fmt(f),
            SaveTrouble::Refused(error) => write!(f, "{path} is as it was: {error}"),
        }
    }
}

impl std::error::Error for SaveError {
    fn source(&self) -> Option<&(dyn std::error::Error + 'static)> {
        match &self.trouble {
            SaveTrouble::System(_, error) => Some(error),
            SaveTrouble::Old(error) => Some(error),
            SaveTrouble::Refused(error) => Some(error),
            _ => None,
        }
    }
}

fn shown(path: &Path) -> Escaped<'_> {
    Escaped(path.as_os_str().as_bytes())
}

/// Rights of the old file that the new one would not have.
#[derive(Clone, Copy, Debug, Default, PartialEq, Eq)]
pub struct Lost {
    /// The old owner, and whose the new file is.
    pub owner: Option<(u32, u32)>,
    /// The old group, and the new file's.
    pub group: Option<(u32, u32)>,
    /// The old mode, and the new file's.
    pub mode: Option<(u32, u32)>,
    /// The owner changes and the mode gives no one else leave to read: whoever read the old file can't read the new one.
    pub readers: bool,
}

impl Lost {
    /// Whether nothing is lost.
    #[must_use]
    pub fn is_nothing(&self) -> bool {
        *self == Lost::default()
    }

    /// Whether more is lost than an owner whose file others may still read.
    fn is_refused(&self) -> bool {
        self.group.is_some() || self.mode.is_some() || self.readers
    }

    fn between(old: &Metadata, new: &Metadata) -> Lost {
        let differs = |was: u32, is: u32| (was != is).then_some((was, is));
        let owner = differs(old.uid(), new.uid());
        let mode = old.mode() & ALL_MODES;
        Lost {
            owner,
            group: differs(old.gid(), new.gid()),
            mode: differs(mode, new.mode() & ALL_MODES),
            readers: owner.is_some() && mode & READ_BY_OTHERS == 0,
        }
    }
}

/// The bits of a mode that can be set.
const ALL_MODES: u32 = 0o7777;

/// The bits by which someone may read who is not the owner.
const READ_BY_OTHERS: u32 = 0o044;

impl fmt::Display for Lost {
    fn fmt(&self, f: &mut fmt::Formatter<'_>) -> fmt::Result {
        let mut words = Vec::new();
        if let Some((was, is)) = self.owner {
            words.push(format!("its owner is {is} and was {was}"));
        }
        if self.readers {
            words.push("its mode lets no one else read it".to_string());
        }
        if let Some((was, is)) = self.group {
            words.push(format!("its group is {is} and was {was}"));
        }
        if let Some((was, is)) = self.mode {
            words.push(format!("its mode is {is:o} and was {was:o}"));
        }
        f.write_str(&words.join(", "))
    }
}

/// What becomes of a merge whose new file would not have all rights of the old one.
#[derive(Clone, Copy, Debug, Default, PartialEq, Eq)]
pub enum Rights {
    /// Group and mode are kept, or nothing is written. An owner that can't be kept is told, and refused where the mode gives the old readers nothing.
    #[default]
    Keep,
    /// The new file is written whatever its rights, and what is lost is told.
    GoOn,
}

/// The lock NAME.lock, held. Dropped, it is removed, and the file is as it was.
#[derive(Debug)]
#[must_use = "the lock is given back at once"]
pub struct Lock {
    target: PathBuf,
    lock: PathBuf,
    file: File,
    /// The lock stands there and is ours.
    is_held: bool,
}

impl Lock {
    /// Takes the lock of a file that is there or is not, and waits so long for someone else's; [`LOCK_WAIT`] is what Git waits. A symbolic link stands
    /// for the file that it leads to.
    pub fn take(path: impl AsRef<Path>, wait: Duration) -> Result<Lock, SaveError> {
        let path = path.as_ref();
        let failed = |error: io::Error| SaveError::new(path, SaveTrouble::System("can't be written", error));
        let mut target = path.to_path_buf();
        match fs::symlink_metadata(&target) {
            Ok(about) if about.is_symlink() => target = fs::canonicalize(&target).map_err(failed)?,
            Err(error) if error.kind() != io::ErrorKind::NotFound => return Err(failed(error)),
            _ => {}
        }
        if target.file_name().is_none() || fs::metadata(&target).is_ok_and(|about| !about.is_file()) {
            return Err(SaveError::new(path, SaveTrouble::NoRegularFile));
        }
        let lock = lock_of(&target);
        let file = match created(&lock, wait) {
            Ok(file) => file,
            Err(error) if error.kind() == io::ErrorKind::AlreadyExists => return Err(SaveError::new(path, SaveTrouble::Locked(lock))),
            Err(error) => return Err(failed(error)),
        };
        Ok(Lock { target, lock, file, is_held: true })
    }

    /// The lock itself, NAME.lock: what a program removes that is told to stop.
    #[must_use]
    pub fn path(&self) -> &Path {
        &self.lock
    }

    /// The file that is to be replaced; of a symbolic link the file that it leads to.
    #[must_use]
    pub fn target(&self) -> &Path {
        &self.target
    }

    /// Whether that file is there.
    #[must_use]
    pub fn is_there(&self) -> bool {
        fs::symlink_metadata(&self.target).is_ok()
    }

    /// Puts new content in the place of the file, and tells which rights of the old one were lost. `seen` is told how many bytes are written.
    pub fn replace(mut self, bytes: impl AsRef<[u8]>, rights: Rights, mut seen: impl FnMut(usize)) -> Result<Lost, SaveError> {
        let unwritten = "can't be written, and is as it was";
        let lost = self.take_over_rights(rights).map_err(|error| self.failed(unwritten, error))?;
        if rights == Rights::Keep && lost.is_refused() {
            return Err(SaveError::new(&self.target, SaveTrouble::Rights(lost)));
        }
        self.write(bytes.as_ref(), &mut seen).map_err(|error| self.failed(unwritten, error))?;
        fs::rename(&self.lock, &self.target).map_err(|error| self.failed("can't be replaced, and is as it was", error))?;
        self.is_held = false;
        self.settle()?;
        Ok(lost)
    }

    /// Removes the file, if it is there.
    pub fn remove(self) -> Result<(), SaveError> {
        match fs::remove_file(&self.target) {
            Err(error) if error.kind() != io::ErrorKind::NotFound => Err(self.failed("can't be removed, and is as it was", error)),
            _ => self.settle(),
        }
    }

    /// The new file gets the old one's owner, group and mode as far as the system lets it. What it did not get is looked at, not guessed.
    fn take_over_rights(&self, rights: Rights) -> io::Result<Lost> {
        let old = match fs::metadata(&self.target) {
            Ok(old) => old,
            Err(error) if error.kind() == io::ErrorKind::NotFound => return Ok(Lost::default()),
            Err(error) => return Err(error),
        };
        let new = self.file.metadata()?;
        // The group first, which is ours to give where the owner is not; then the mode, since a change of owner takes bits away.
        if old.gid() != new.gid() {
            let _ = fchown(&self.file, None, Some(old.gid()));
        }
        if old.uid() != new.uid() {
            let _ = fchown(&self.file, Some(old.uid()), None);
        }
        let mode = self.file.set_permissions(Permissions::from_mode(old.mode() & ALL_MODES));
        if rights == Rights::Keep {
            mode?;
        }
        Ok(Lost::between(&old, &self.file.metadata()?))
    }

    fn write(&mut self, bytes: &[u8], seen: &mut impl FnMut(usize)) -> io::Result<()> {
        let mut done = 0;
        for piece in bytes.chunks(PIECE) {
            self.file.write_all(piece)?;
            done += piece.len();
            seen(done);
        }
        self.file.sync_all()
    }

    /// Forces the directory to disk.
    fn settle(&self) -> Result<(), SaveError> {
        let dir = match self.target.parent() {
            Some(dir) if dir != Path::new("") => dir,
            _ => Path::new("."),
        };
        let forced = File::open(dir).and_then(|dir| dir.sync_all());
        forced.map_err(|error| self.failed("is written, but may be the old one again after a power failure", error))
    }

    fn failed(&self, what: &'static str, error: io::Error) -> SaveError {
        SaveError::new(&self.target, SaveTrouble::System(what, error))
    }
}

impl Drop for Lock {
    fn drop(&mut self) {
        if self.is_held {
            let _ = fs::remove_file(&self.lock);
        }
    }
}

fn lock_of(target: &Path) -> PathBuf {
    let mut lock = OsString::from(target);
    lock.push(".lock");
    PathBuf::from(lock)
}

/// A file that was not there before, and is waited for where it is.
fn created(lock: &Path, wait: Duration) -> io::Result<File> {
    let begun = Instant::now();
    let mut pause = Duration::from_millis(5);
    loop {
        match OpenOptions::new().write(true).create_new(true).open(lock) {
            Err(error) if error.kind() == io::ErrorKind::AlreadyExists && begun.elapsed() < wait => {
                std::thread::sleep(pause.min(wait.saturating_sub(begun.elapsed())));
                pause = (pause * 2).min(Duration::from_millis(100));
            }
            other => return other,
        }
    }
}

/// What became of a file that edits were merged into.
#[derive(Clone, Copy, Debug, PartialEq, Eq)]
#[must_use]
pub enum Saved {
    /// The new file stands there; which rights of the old one it does not have.
    New(Lost),
    /// No update, and no delete names a record: the file is as it was (number 13).
    NothingToDo,
    /// No record remained, and the file was removed (number 14).
    Removed,
}

/// Merges edits into a file: takes its lock, reads it, merges, and replaces it as a whole. A file that is not there counts as empty; one of zero bytes
/// is refused, unless the opener says that it may be empty.
///
/// ```
/// use packed_refs::{merge_file, ask, Edits, Found, IdKind, Lost, Opener, Rights, Saved};
/// # let dir = std::env::temp_dir().join(format!("packed-refs-merge-file-{}", std::process::id()));
/// # std::fs::create_dir_all(&dir).unwrap();
/// # let path = dir.join("table");
/// let mut edits = Edits::new(IdKind::Sha1);
/// edits.update("refs/s/a", "1111111111111111111111111111111111111111").unwrap();
/// assert_eq!(merge_file(&path, &edits, Opener::new(), Rights::Keep).unwrap(), Saved::New(Lost::default()));
/// let table = Opener::new().check(IdKind::Sha1, &path).unwrap();
/// assert!(matches!(table.find("refs/s/a"), Ok(Found::Charted(_))));
/// # std::fs::remove_dir_all(&dir).unwrap();
/// ```
pub fn merge_file(path: impl AsRef<Path>, edits: &Edits, opener: Opener<'_>, rights: Rights) -> Result<Saved, SaveError> {
    let path = path.as_ref();
    let lock = Lock::take(path, LOCK_WAIT)?;
    let old = match opener.bytes(lock.target()) {
        Ok(old) => old,
        Err(error) if matches!(error.trouble(), OpenTrouble::NotThere) => Vec::new(),
        Err(error) => return Err(SaveError::new(path, SaveTrouble::Old(error))),
    };
    match merge(&old, edits).map_err(|error| SaveError::new(path, SaveTrouble::Refused(error)))? {
        Merged::New(bytes) => lock.replace(bytes, rights, |_| {}).map(Saved::New),
        Merged::NothingToDo => Ok(Saved::NothingToDo),
        Merged::RemoveFile => lock.remove().map(|()| Saved::Removed),
    }
}
