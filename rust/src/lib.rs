//! Git's packed-refs file, read and merged by proved code.
//!
//! A sender asks the table of references whether a name is in it. Found means charted: stop. Absent means that it may be sent. Everything
//! else means that the question was not answered: call someone. This crate is written so that **absent and unreadable never look
//! alike**: only a call that has seen that the whole file passes the check can say *absent*. And a name that is charted in a file that does not pass
//! the check is a case of its own: stop, and call someone.
//!
//! ```
//! use packed_refs::{ask, Asked, IdKind};
//!
//! let file = b"1111111111111111111111111111111111111111 refs/sent/a\n";
//! match ask(IdKind::Sha1, file, b"refs/sent/a") {
//!     Ok(Asked::Charted(record)) => assert_eq!(record.name, b"refs/sent/a"), // stop
//!     Ok(Asked::ChartedInDamagedFile { .. }) => unreachable!(),              // stop, and call someone
//!     Ok(Asked::Absent) => unreachable!(),                                   // it may be sent
//!     Err(_) => unreachable!(),                                              // do not send, and call someone
//! }
//! ```
//!
//! # Which lookup to use
//!
//! | call | bytes | can say absent | cost |
//! |---|---|---|---|
//! | [`ask`] | any | yes, and it is worth the same on any bytes | at most one pass over the file |
//! | [`ask_many`] | any | yes, as `ask` | one pass over the file for all names, at most two if it is damaged |
//! | [`Checked::find`] | a file that passed [`Table::check`] | yes | a handful of probes |
//! | [`Table::glance`] | any | **no**: [`Glance::NotFound`] is not worth *absent* | a handful of probes |
//!
//! # Files
//!
//! [`Opener`] reads a file whole or refuses it: one of zero bytes, one that changes meanwhile, one that is too large. What it gives is kept with its check
//! in one value, a [`CheckedFile`]. [`merge_file`] merges edits into a file under its lock, and [`Lock`] replaces a file as a whole.
//!
//! # What is proved, and what is not
//!
//! The reading and the merging happen in the library `host`, which is written in Rattle and proved; what is proved of it is listed in
//! docs/GUARANTEES.md of the repository. This crate is not proved. It turns numbers and places into Rust types, and it is small enough to be read.
//! All its `unsafe` stands in one module, [`sys`], and is there only to call that library.
//!
//! Nothing is copied on reading: a [`Record`] borrows its name and its ids from the lent bytes.
#![deny(unsafe_code)]
#![deny(missing_docs)]
#![deny(clippy::must_use_candidate)]

#[forbid(unsafe_code)]
mod edits;
#[forbid(unsafe_code)]
mod error;
#[forbid(unsafe_code)]
mod escape;
#[forbid(unsafe_code)]
mod file;
#[forbid(unsafe_code)]
mod items;
#[forbid(unsafe_code)]
mod lock;
#[forbid(unsafe_code)]
mod loose;
#[forbid(unsafe_code)]
mod many;
#[forbid(unsafe_code)]
pub mod numbers;
#[allow(unsafe_code)]
pub mod sys;
#[forbid(unsafe_code)]
mod table;

pub use edits::{merge, Edits, Merged};
pub use error::Error;
pub use escape::Escaped;
pub use file::{CheckedFile, OpenError, OpenTrouble, Opener, TableFile, QUIET};
pub use items::{Damage, Items};
pub use lock::{merge_file, Lock, Lost, Rights, SaveError, SaveTrouble, Saved, LOCK_WAIT};
pub use loose::{loose, Loose};
pub use many::ask_many;
pub use numbers::Reason;
pub use table::{ask, check_name, header, Asked, Checked, Found, Glance, Header, Peeled, Record, Records, Table};

/// The largest input that is taken: a file, a name, a prefix, an edit list or loose content. One byte more is refused with number 17.
pub const LARGEST_INPUT: usize = 1_073_741_824;

/// How long the ids of a file are.
#[derive(Clone, Copy, Debug, PartialEq, Eq, Hash)]
pub enum IdKind {
    /// 40 hex digits.
    Sha1,
    /// 64 hex digits.
    Sha256,
}

impl IdKind {
    /// How many hex digits an id has.
    ///
    /// ```
    /// use packed_refs::IdKind;
    /// assert_eq!(IdKind::Sha1.digits(), 40);
    /// assert_eq!(IdKind::Sha256.digits(), 64);
    /// ```
    #[must_use]
    pub fn digits(self) -> usize {
        match self {
            IdKind::Sha1 => 40,
            IdKind::Sha256 => 64,
        }
    }

    /// The number that the boundary knows the kind by.
    #[must_use]
    pub fn number(self) -> u32 {
        match self {
            IdKind::Sha1 => 1,
            IdKind::Sha256 => 2,
        }
    }
}
