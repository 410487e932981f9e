//! The lock of a merge, which no signal leaves behind.
use crate::progress::Progress;
use crate::refusal::{Refusal, Trouble};
use crate::signals;
use crate::words::shown;
use packed_refs::{Lock, Lost, Rights, SaveError, SaveTrouble, LOCK_WAIT};
use std::ffi::OsStr;
use std::path::Path;

/// The lock, held. A signal that ends the program takes it away first; so does dropping it.
pub struct Guarded(Option<Lock>);

impl Guarded {
    /// Waits for another program's lock as Git does. Signals wait as long: whether the lock is ours is not to be in doubt.
    pub fn take(path: &OsStr) -> Result<Guarded, Trouble> {
        let _held = signals::hold();
        let lock = Lock::take(path, LOCK_WAIT).map_err(|error| refusal(&error))?;
        signals::lock_is(lock.path());
        Ok(Guarded(Some(lock)))
    }

    /// Whether the file itself is there.
    pub fn is_there(&self) -> bool {
        self.0.as_ref().is_some_and(Lock::is_there)
    }

    /// Puts new content in the place of the file. Signals wait but between two pieces that are written: there the lock is ours without doubt.
    pub fn replace(mut self, bytes: &[u8], rights: Rights) -> Result<Lost, Trouble> {
        let Some(lock) = self.0.take() else { return Ok(Lost::default()) };
        let progress = Progress::new(format!("writing {}", shown(lock.target().as_os_str())), Some(bytes.len()));
        let mut held = signals::hold();
        let replaced = lock.replace(bytes, rights, |done| {
            progress.at(done);
            held.let_in();
        });
        signals::lock_is_no_more();
        replaced.map_err(|error| refusal(&error).into())
    }

    /// Removes the file, if it is there.
    pub fn remove(mut self) -> Result<(), Trouble> {
        let _held = signals::hold();
        let removed = self.0.take().map_or(Ok(()), Lock::remove);
        signals::lock_is_no_more();
        removed.map_err(|error| refusal(&error).into())
    }
}

impl Drop for Guarded {
    fn drop(&mut self) {
        if let Some(lock) = self.0.take() {
            let _held = signals::hold();
            drop(lock);
            signals::lock_is_no_more();
        }
    }
}

fn refusal(error: &SaveError) -> Refusal {
    let path = |path: &Path| shown(path.as_os_str());
    let name = path(error.path());
    let words = match error.trouble() {
        SaveTrouble::Locked(lock) => format!(
            "{} is there: another program is writing {name}, or was stopped while it did. {name} is whole, and nothing was written. Try again. Only if \
             no program writes it, here or on another machine, remove the lock: removed under one that does, its edits are lost.",
            path(lock)
        ),
        SaveTrouble::NoRegularFile => format!("{name} is no regular file: it can't be replaced"),
        SaveTrouble::Rights(lost) => format!(
            "{name} is as it was: whoever reads it might not be able to read the new file, since {lost}. Merge as its owner, or say \
             --allow-other-rights if every reader can do with that."
        ),
        SaveTrouble::System(what, error) => format!("{name} {what}: {error}"),
        _ => error.to_string(),
    };
    Refusal { file: Some(error.path().into()), ..Refusal::new(words) }
}
