//! The content of a loose reference file.
use crate::{sys, Error, Escaped, IdKind};
use std::fmt;

/// What a loose reference says.
#[derive(Clone, Copy, PartialEq, Eq, Hash)]
#[must_use]
pub enum Loose<'a> {
    /// An id, in hex digits as they stand there.
    Id(&'a [u8]),
    /// The valid name of another reference.
    Symbolic(&'a [u8]),
}

impl fmt::Debug for Loose<'_> {
    fn fmt(&self, f: &mut fmt::Formatter<'_>) -> fmt::Result {
        match self {
            Loose::Id(id) => f.debug_tuple("Id").field(&Escaped(id)).finish(),
            Loose::Symbolic(name) => f.debug_tuple("Symbolic").field(&Escaped(name)).finish(),
        }
    }
}

/// Reads the content of a loose reference file: number 15 where it can't be read, 16 where a symbolic target breaks the name rules.
///
/// ```
/// use packed_refs::{loose, IdKind, Loose};
/// assert_eq!(loose(IdKind::Sha1, b"ref:  refs/s/a\n"), Ok(Loose::Symbolic(b"refs/s/a")));
/// assert_eq!(loose(IdKind::Sha1, b"ref: nonsense..\n").unwrap_err().number(), 16);
/// assert_eq!(loose(IdKind::Sha1, b"\n").unwrap_err().number(), 15);
/// ```
pub fn loose<'a>(kind: IdKind, content: &'a (impl AsRef<[u8]> + ?Sized)) -> Result<Loose<'a>, Error> {
    let content = content.as_ref();
    let said = sys::loose(kind.number(), content);
    if said.number != 0 {
        return Err(Error::bare(said.number));
    }
    let part = &content[said.at..said.at + said.len];
    match said.what {
        1 => Ok(Loose::Id(part)),
        2 => Ok(Loose::Symbolic(part)),
        other => panic!("packed_refs_loose gave what {other}"),
    }
}
