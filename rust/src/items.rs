//! Iteration: records and damaged lines, one after another.
use crate::escape::Escaped;
use crate::{sys, IdKind, Reason, Record};
use std::fmt;

/// A part of a file that is no record.
#[derive(Clone, Copy, PartialEq, Eq, Hash)]
#[must_use]
pub struct Damage<'a> {
    /// Where it starts, counted in the whole file.
    pub place: usize,
    /// The line that it starts on, as an editor counts: one more than the line feeds before it. None in a listing by prefix, which starts in the middle.
    pub line: Option<u64>,
    /// The whole line from that place on, without its LF. A CR before the LF stays.
    pub text: &'a [u8],
    /// Which part of the record is bad, the first of them: numbers 41 to 45.
    ///
    /// Beside [`Reason::BadPeeled`] that part is the line below this one, and it is an item of its own: only a record that can be read takes its
    /// `^` line with it.
    pub reason: Reason,
}

impl fmt::Debug for Damage<'_> {
    fn fmt(&self, f: &mut fmt::Formatter<'_>) -> fmt::Result {
        let text = Escaped(self.text);
        let mut shown = f.debug_struct("Damage");
        shown.field("place", &self.place).field("line", &self.line).field("text", &text).field("reason", &self.reason).finish()
    }
}

impl fmt::Display for Damage<'_> {
    fn fmt(&self, f: &mut fmt::Formatter<'_>) -> fmt::Result {
        write!(f, "{}; ", self.reason)?;
        if let Some(line) = self.line {
            write!(f, "line {line}, ")?;
        }
        write!(f, "it starts at byte {}: {}", self.place, Escaped(self.text))
    }
}

impl std::error::Error for Damage<'_> {}

/// The items of a file, in order: `Ok` a record, `Err` a damaged line. Damage stays local: reading goes on behind the line.
///
/// ```
/// use packed_refs::{IdKind, Reason, Table};
/// let file = b"1111111111111111111111111111111111111111 refs/s/a\n\
///              ^3333333333333333333333333333333333333333\n\
///              rubbish\r\n\
///              2222222222222222222222222222222222222222 refs/s/b\n\
///              cut";
/// let mut items = Table::new(IdKind::Sha1, file).items().unwrap();
/// let a = items.next().unwrap().unwrap();
/// assert_eq!(a.peeled, Some(&b"3333333333333333333333333333333333333333"[..]));
/// // where it stands, the line that opens in an editor, and the whole of that line
/// let damage = items.next().unwrap().unwrap_err();
/// assert_eq!((damage.place, damage.line, damage.text), (92, Some(3), &b"rubbish\r"[..]));
/// assert_eq!(damage.reason, Reason::BadId);
/// assert_eq!(items.next().unwrap().unwrap().name, b"refs/s/b");
/// let cut = items.next().unwrap().unwrap_err();
/// assert_eq!((cut.place, cut.line, cut.text), (151, Some(5), &b"cut"[..]));
/// assert!(items.next().is_none());
/// ```
#[derive(Clone)]
#[must_use = "the items are read as they are asked for"]
pub struct Items<'a> {
    kind: IdKind,
    bytes: &'a [u8],
    place: usize,
    way: Way,
}

/// How it goes on from an item to the next.
#[derive(Clone)]
enum Way {
    /// To the end of the file, from the line that the next item starts on.
    Walk(u64),
    /// Up to the first record whose name does not begin with these bytes.
    Prefix(Vec<u8>),
}

/// Where it is, and not what stands in the file.
impl fmt::Debug for Items<'_> {
    fn fmt(&self, f: &mut fmt::Formatter<'_>) -> fmt::Result {
        let mut shown = f.debug_struct("Items");
        shown.field("kind", &self.kind).field("bytes", &self.bytes.len()).field("place", &self.place);
        match &self.way {
            Way::Walk(line) => shown.field("line", line),
            Way::Prefix(prefix) => shown.field("prefix", &Escaped(prefix)),
        };
        shown.finish()
    }
}

impl<'a> Items<'a> {
    /// From a place and its line on to the end. The bytes are within the limit.
    pub(crate) fn walk(kind: IdKind, bytes: &'a [u8], place: usize, line: u64) -> Items<'a> {
        Items { kind, bytes, place, way: Way::Walk(line) }
    }

    /// From a place on, up to the first record whose name does not begin with the prefix. Bytes and prefix are within the limit.
    pub(crate) fn with_prefix(kind: IdKind, bytes: &'a [u8], prefix: &[u8], place: usize) -> Items<'a> {
        Items { kind, bytes, place, way: Way::Prefix(prefix.to_vec()) }
    }

    /// Where the next item starts.
    #[must_use]
    pub fn place(&self) -> usize {
        self.place
    }

    /// The line that the next item starts on. None in a listing by prefix.
    ///
    /// ```
    /// use packed_refs::{IdKind, Table};
    /// let file = b"# pack-refs with: sorted \n1111111111111111111111111111111111111111 refs/s/a\n^3333333333333333333333333333333333333333\n";
    /// let mut items = Table::new(IdKind::Sha1, file).items().unwrap();
    /// assert_eq!(items.line(), Some(2));
    /// let _ = items.next();
    /// assert_eq!(items.line(), Some(4));
    /// ```
    #[must_use]
    pub fn line(&self) -> Option<u64> {
        match self.way {
            Way::Walk(line) => Some(line),
            Way::Prefix(_) => None,
        }
    }
}

impl<'a> Iterator for Items<'a> {
    type Item = Result<Record<'a>, Damage<'a>>;

    fn next(&mut self) -> Option<Self::Item> {
        let kind = self.kind.number();
        let (said, line) = match &mut self.way {
            Way::Walk(line) => {
                let said = sys::walk(kind, self.bytes, self.place, *line);
                *line = said.next_line;
                (said, Some(said.line))
            }
            Way::Prefix(prefix) => (sys::step_prefix(kind, self.bytes, prefix, self.place), None),
        };
        // The kind is known and the sizes were tested. A refusal must never look like the end.
        assert_eq!(said.number, 0, "a step refused what the start had taken");
        self.place = said.next;
        match said.what {
            0 => None,
            1 => Some(Ok(Record::at(self.kind, self.bytes, said.start, said.name_at, said.name_len, said.peeled_at))),
            2 => {
                let text = &self.bytes[said.start..said.start + said.text_len];
                Some(Err(Damage { place: said.start, line, text, reason: Reason::of(said.why) }))
            }
            other => panic!("a step gave what {other}"),
        }
    }
}

impl std::iter::FusedIterator for Items<'_> {}
