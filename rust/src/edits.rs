//! The edit list, and the merge of an old file and its edits.
use crate::table::refusal;
use crate::{sys, Error, IdKind};
use std::fmt;

/// The longest name that an edit may have.
const LONGEST_NAME: usize = 4096;

/// So many edits are taken, so an index of this length always suffices.
const MOST_EDITS: usize = 4096;

/// What stands first in every merged file.
const HEADER_LEN: usize = 46;

/// The edits of a merge, as the bytes of an edit list: for each edit its kind, the length of its name in groups of seven bits, the name and the
/// raw ids.
///
/// ```
/// use packed_refs::{Edits, IdKind};
/// let mut edits = Edits::new(IdKind::Sha1);
/// edits.delete(b"refs/s/c").unwrap();
/// edits.update(b"refs/s/b", b"4444444444444444444444444444444444444444").unwrap();
/// assert_eq!(edits.bytes()[..10], *b"\x00\x08refs/s/c");
/// assert_eq!(edits.bytes().len(), 10 + 30);
///
/// // a name or an id that no list may hold is refused at once, and the list stays as it was
/// assert_eq!(edits.delete(b"refs//c").unwrap_err().number(), 8);
/// assert_eq!(edits.update(b"refs/s/d", b"44").unwrap_err().number(), 7);
/// assert_eq!(edits.bytes().len(), 40);
/// ```
///
/// The order of the edits does not matter. Two edits of one name are refused by the merge (number 11), as is a 4,097th edit (9).
#[derive(Clone, PartialEq, Eq)]
#[must_use]
pub struct Edits {
    kind: IdKind,
    list: Vec<u8>,
}

/// How long the list is, and not what stands in it.
impl fmt::Debug for Edits {
    fn fmt(&self, f: &mut fmt::Formatter<'_>) -> fmt::Result {
        f.debug_struct("Edits").field("kind", &self.kind).field("bytes", &self.list.len()).finish()
    }
}

impl Edits {
    /// No edits yet.
    pub fn new(kind: IdKind) -> Edits {
        Edits { kind, list: Vec::new() }
    }

    /// An edit list that someone else wrote. It is read, and refused if need be, by the merge.
    pub fn from_bytes(kind: IdKind, list: impl Into<Vec<u8>>) -> Edits {
        Edits { kind, list: list.into() }
    }

    /// The record of a name is to be removed; it need not be there.
    pub fn delete(&mut self, name: impl AsRef<[u8]>) -> Result<&mut Edits, Error> {
        self.push(0, name.as_ref(), &[])
    }

    /// A name is to have an id, given in hex digits, and no peeled id. The record may be there or not.
    pub fn update(&mut self, name: impl AsRef<[u8]>, id: impl AsRef<[u8]>) -> Result<&mut Edits, Error> {
        self.push(1, name.as_ref(), &[id.as_ref()])
    }

    /// A name is to have an id and a peeled id, given in hex digits.
    pub fn update_peeled(&mut self, name: impl AsRef<[u8]>, id: impl AsRef<[u8]>, peeled: impl AsRef<[u8]>) -> Result<&mut Edits, Error> {
        self.push(2, name.as_ref(), &[id.as_ref(), peeled.as_ref()])
    }

    /// The bytes of the list.
    #[must_use]
    pub fn bytes(&self) -> &[u8] {
        &self.list
    }

    /// How long its ids are.
    #[must_use]
    pub fn kind(&self) -> IdKind {
        self.kind
    }

    fn push(&mut self, kind: u8, name: &[u8], ids: &[&[u8]]) -> Result<&mut Edits, Error> {
        let begin = self.list.len();
        if name.len() > LONGEST_NAME || sys::name(name) != 0 {
            return Err(Error::at(8, begin));
        }
        self.list.push(kind);
        put_length(&mut self.list, name.len());
        self.list.extend_from_slice(name);
        for id in ids {
            if put_raw(&mut self.list, id, self.kind).is_none() {
                self.list.truncate(begin);
                return Err(Error::at(7, begin));
            }
        }
        Ok(self)
    }
}

/// A length in groups of seven bits, low group first, the top bit set on all but the last.
fn put_length(list: &mut Vec<u8>, len: usize) {
    let mut rest = len;
    while rest > 127 {
        list.push((rest % 128) as u8 | 128);
        rest /= 128;
    }
    list.push(rest as u8);
}

/// An id in raw bytes, or nothing where it is not that many hex digits.
fn put_raw(list: &mut Vec<u8>, id: &[u8], kind: IdKind) -> Option<()> {
    if id.len() != kind.digits() {
        return None;
    }
    for pair in id.chunks_exact(2) {
        let high = char::from(pair[0]).to_digit(16)?;
        let low = char::from(pair[1]).to_digit(16)?;
        list.push((high * 16 + low) as u8);
    }
    Some(())
}

/// What a merge comes to.
#[derive(Clone, PartialEq, Eq)]
#[must_use = "nothing is written yet"]
pub enum Merged {
    /// The new file.
    New(Vec<u8>),
    /// No update, and no delete names a record of the old file: leave the file as it is (number 13).
    NothingToDo,
    /// No record remains: remove the file (number 14).
    RemoveFile,
}

/// How long the new file is, and not what stands in it.
impl fmt::Debug for Merged {
    fn fmt(&self, f: &mut fmt::Formatter<'_>) -> fmt::Result {
        match self {
            Merged::New(bytes) => write!(f, "New({} bytes)", bytes.len()),
            Merged::NothingToDo => f.write_str("NothingToDo"),
            Merged::RemoveFile => f.write_str("RemoveFile"),
        }
    }
}

/// Merges edits into an old file, with or without header; empty bytes stand for no file at all. The new file has a header, and its records in
/// name order, old ids as they were and new ones in lower-case digits.
///
/// An old file that does not pass the check is refused (2, 6, 41 to 45), and so is a list with a fault (7, 8, 9, 11); then there is no new file. 12 says
/// that there is not enough memory for one.
///
/// ```
/// use packed_refs::{merge, Edits, IdKind, Merged};
/// let old = b"1111111111111111111111111111111111111111 refs/s/a\n";
/// let mut edits = Edits::new(IdKind::Sha1);
/// edits.update(b"refs/s/b", b"4444444444444444444444444444444444444444").unwrap();
/// let new = b"# pack-refs with: peeled fully-peeled sorted \n\
///             1111111111111111111111111111111111111111 refs/s/a\n\
///             4444444444444444444444444444444444444444 refs/s/b\n";
/// assert_eq!(merge(old, &edits), Ok(Merged::New(new.to_vec())));
///
/// let mut nobody = Edits::new(IdKind::Sha1);
/// nobody.delete(b"refs/s/x").unwrap();
/// assert_eq!(merge(old, &nobody), Ok(Merged::NothingToDo));
///
/// let mut last = Edits::new(IdKind::Sha1);
/// last.delete(b"refs/s/a").unwrap();
/// assert_eq!(merge(old, &last), Ok(Merged::RemoveFile));
///
/// let error = merge([&old[..], b"rubbish\n"].concat(), &edits).unwrap_err();
/// assert_eq!((error.number(), error.place(), error.line(), error.text()), (41, Some(50), Some(2), &b"rubbish"[..]));
/// ```
pub fn merge(old: impl AsRef<[u8]>, edits: &Edits) -> Result<Merged, Error> {
    let old = old.as_ref();
    let mut index = [0; MOST_EDITS];
    let mut out = room(longest_new(old.len(), edits.list.len()));
    let said = sys::merge(edits.kind.number(), old, &edits.list, &mut index, &mut out);
    match said.number {
        0 => {
            out.truncate(said.length);
            Ok(Merged::New(out))
        }
        13 => Ok(Merged::NothingToDo),
        14 => Ok(Merged::RemoveFile),
        number => Err(refusal(number, old, said.place, said.line, said.text_len)),
    }
}

/// So many bytes to be written over, or none where there is not enough memory: then the merge says that the room is too short (number 12).
fn room(len: usize) -> Vec<u8> {
    let mut out = Vec::new();
    if out.try_reserve_exact(len).is_ok() {
        out.resize(len, 0);
    }
    out
}

/// No new file is longer. What stays of the old one is not longer than it was. An edit's lines are at most twice as long as the edit: each raw
/// byte of an id becomes two digits, a name's byte stays one, and the four other bytes that there are at most (space, LF, `^`, LF) are
/// twice the edit's kind and length.
fn longest_new(old: usize, list: usize) -> usize {
    HEADER_LEN + old + 2 * list
}
