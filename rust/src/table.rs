//! A table of references in lent bytes: header, check, lookup, listing.
use crate::error::Given;
use crate::{sys, Error, Escaped, IdKind, Items, Reason};
use std::fmt;

/// A record: its parts are parts of the lent bytes, ids as they stand there.
#[derive(Clone, Copy, PartialEq, Eq, Hash)]
#[must_use]
pub struct Record<'a> {
    /// The name.
    pub name: &'a [u8],
    /// The id, in hex digits.
    pub id: &'a [u8],
    /// The peeled id behind `^`, if the record has one.
    pub peeled: Option<&'a [u8]>,
    /// Where the record starts in the file.
    pub place: usize,
}

impl<'a> Record<'a> {
    /// The record whose parts an answer told, in the bytes that were lent. A peeled id never stands at 0, which says that there is none.
    pub(crate) fn at(kind: IdKind, bytes: &'a [u8], place: usize, name_at: usize, name_len: usize, peeled_at: usize) -> Record<'a> {
        let id = |from: usize| &bytes[from..from + kind.digits()];
        Record { name: &bytes[name_at..name_at + name_len], id: id(place), peeled: (peeled_at != 0).then(|| id(peeled_at)), place }
    }

    /// The same record where the bytes begin so much later than the file.
    fn behind(self, body: usize) -> Record<'a> {
        Record { place: self.place + body, ..self }
    }
}

impl fmt::Debug for Record<'_> {
    fn fmt(&self, f: &mut fmt::Formatter<'_>) -> fmt::Result {
        let (name, id, peeled) = (Escaped(self.name), Escaped(self.id), self.peeled.map(Escaped));
        f.debug_struct("Record").field("name", &name).field("id", &id).field("peeled", &peeled).field("place", &self.place).finish()
    }
}

/// The answer of a lookup in a file that passed the check.
#[derive(Clone, Copy, Debug, PartialEq, Eq, Hash)]
#[must_use = "charted means stop, and absent means that it may be sent"]
pub enum Found<'a> {
    /// A record of the file has the name: stop.
    Charted(Record<'a>),
    /// No record has the name: it may be sent.
    Absent,
}

/// The answer of a lookup in a file that nobody checked before, and that was lent as a whole: [`ask`].
///
/// There are three cases, and a `match` has to name each:
///
/// ```compile_fail,E0004
/// # use packed_refs::{ask, Asked, IdKind};
/// match ask(IdKind::Sha1, b"", b"refs/s/a").unwrap() {
///     Asked::Charted(_) => {}
///     Asked::Absent => {}
/// }
/// ```
#[derive(Clone, Copy, Debug, PartialEq, Eq, Hash)]
#[must_use = "charted means stop, in a damaged file also call someone, and absent means that it may be sent"]
pub enum Asked<'a> {
    /// A record has the name, and the whole file passes the check: stop.
    Charted(Record<'a>),
    /// A record has the name, but the file does not pass the check: stop, and call someone. Whether the record is as it was written is not known: it may
    /// itself be what the damage made.
    ChartedInDamagedFile {
        /// The first record that has the name.
        record: Record<'a>,
        /// Why the file does not pass. [`Table::check`] gives the same, with its place.
        fault: Reason,
    },
    /// The whole file passes the check, and no record has the name: it may be sent.
    Absent,
}

/// What a file that passed the check says.
impl<'a> From<Found<'a>> for Asked<'a> {
    fn from(found: Found<'a>) -> Asked<'a> {
        match found {
            Found::Charted(record) => Asked::Charted(record),
            Found::Absent => Asked::Absent,
        }
    }
}

/// The answer of a lookup in bytes that nobody checked.
#[derive(Clone, Debug, PartialEq, Eq)]
#[must_use]
pub enum Glance<'a> {
    /// A record has the name, and it stands there. Whether the rest of the file passes the check was not looked at; [`ask`] says that too.
    Charted(Record<'a>),
    /// The search met no record of the name. **This is not worth *absent***: a damaged line can lead the search astray, past a record
    /// that is there. Ask again with [`ask`].
    NotFound,
    /// Something that the search looked at can't be read. It was the record of the name itself (numbers 41 and 45, with its place), or some line on the
    /// way to a name that was not met (4, without a place: [`Table::check`] says which line is bad).
    Unreadable(Error),
}

/// What a header says of peeled ids.
#[derive(Clone, Copy, Debug, PartialEq, Eq, Hash)]
#[must_use]
pub enum Peeled {
    /// Nothing, or there is no header.
    Unspecified,
    /// `peeled`: tags have theirs.
    Partial,
    /// `fully-peeled`: whatever can have one has it.
    Fully,
}

/// The header of a file. A file without one has an unspecified, unsorted header that ends at 0.
#[derive(Clone, Copy, Debug, PartialEq, Eq, Hash)]
#[must_use]
pub struct Header {
    /// What it says of peeled ids.
    pub peeled: Peeled,
    /// Whether it says `sorted`. Nothing relies on that: the check looks.
    pub sorted: bool,
    /// The place behind it, where the records begin.
    pub body: usize,
}

/// Reads the header of a file: number 2 where the first byte is `#` and the line is none, 17 where the file is too large.
///
/// ```
/// use packed_refs::{header, Peeled};
/// let h = header(b"# pack-refs with: peeled fully-peeled sorted \n").unwrap();
/// assert_eq!((h.peeled, h.sorted, h.body), (Peeled::Fully, true, 46));
///
/// let error = header(b"# something else\n").unwrap_err();
/// assert_eq!((error.number(), error.text()), (2, &b"# something else"[..]));
/// ```
pub fn header(file: impl AsRef<[u8]>) -> Result<Header, Error> {
    let file = file.as_ref();
    let said = sys::header(file);
    match said.number {
        0 => Ok(Header {
            peeled: match said.peeled {
                0 => Peeled::Unspecified,
                1 => Peeled::Partial,
                2 => Peeled::Fully,
                other => panic!("packed_refs_header gave peeled {other}"),
            },
            sorted: said.sorted != 0,
            body: said.place,
        }),
        number => Err(refusal(number, file, 0, 0, said.text_len)),
    }
}

/// Tests a name against the rules of Git's page git-check-ref-format, with at least one slash: number 3 where it breaks them.
///
/// ```
/// use packed_refs::check_name;
/// assert!(check_name(b"refs/sent/ward4/o118/e3").is_ok());
/// assert_eq!(check_name(b"refs/sent//e3").unwrap_err().number(), 3);
/// assert_eq!(check_name(b"refs/sent/ward4.lock/e3").unwrap_err().number(), 3);
/// ```
pub fn check_name(name: impl AsRef<[u8]>) -> Result<(), Error> {
    match sys::name(name.as_ref()) {
        0 => Ok(()),
        number => Err(Error::bare(number)),
    }
}

/// The lookup that can be trusted on any bytes. It is lent the whole file and goes through it at most once: to its end, unless it has met both the name
/// and a fault before. Beside 2, 3 and 17 there is no pass.
///
/// *Charted* is said if a good record has the name, even if the file is damaged elsewhere; then that is said too. *Absent* is said only if the whole file
/// passes the check. Everything else is an error: 2, 6 or 41 to 45 for what the check finds, 3 for the name, 17 for the size. Then do not send.
///
/// ```
/// use packed_refs::{ask, Asked, IdKind, Reason};
/// let file = b"1111111111111111111111111111111111111111 refs/s/a\nrubbish\n";
///
/// // what stands in the file is charted, whatever else stands there; but someone has to see to the file
/// let Ok(Asked::ChartedInDamagedFile { record, fault }) = ask(IdKind::Sha1, file, b"refs/s/a") else { panic!() };
/// assert_eq!((record.name, fault), (&b"refs/s/a"[..], Reason::BadId));
/// // what might have stood on the damaged line is never absent
/// let error = ask(IdKind::Sha1, file, b"refs/s/b").unwrap_err();
/// assert_eq!((error.number(), error.place(), error.line(), error.text()), (41, Some(50), Some(2), &b"rubbish"[..]));
/// // without the damaged line it is
/// assert!(matches!(ask(IdKind::Sha1, &file[..50], b"refs/s/a"), Ok(Asked::Charted(_))));
/// assert_eq!(ask(IdKind::Sha1, &file[..50], b"refs/s/b"), Ok(Asked::Absent));
/// ```
///
/// Of many names [`ask_many`](crate::ask_many) says the same for little more than one pass.
pub fn ask<'a>(kind: IdKind, file: &'a (impl AsRef<[u8]> + ?Sized), name: impl AsRef<[u8]>) -> Result<Asked<'a>, Error> {
    let file = file.as_ref();
    let said = sys::ask(kind.number(), file, name.as_ref());
    let record = || Record::at(kind, file, said.place, said.name_at, said.name_len, said.peeled_at);
    match (said.number, said.fault) {
        (0, 0) => Ok(Asked::Charted(record())),
        (0, fault) => Ok(Asked::ChartedInDamagedFile { record: record(), fault: Reason::of(fault) }),
        (5, _) => Ok(Asked::Absent),
        (number, _) => Err(refusal(number, file, said.place, said.line, said.text_len)),
    }
}

/// The bytes of a file, as they are: nobody has checked them.
#[derive(Clone, Copy)]
#[must_use]
pub struct Table<'a> {
    kind: IdKind,
    bytes: &'a [u8],
}

/// How long the file is, and not what stands in it.
impl fmt::Debug for Table<'_> {
    fn fmt(&self, f: &mut fmt::Formatter<'_>) -> fmt::Result {
        f.debug_struct("Table").field("kind", &self.kind).field("bytes", &self.bytes.len()).finish()
    }
}

impl<'a> Table<'a> {
    /// A table in lent bytes. Nothing is looked at yet.
    pub fn new(kind: IdKind, bytes: &'a (impl AsRef<[u8]> + ?Sized)) -> Table<'a> {
        Table { kind, bytes: bytes.as_ref() }
    }

    /// The check of a whole file: every item is a record, and every name is greater than the one before. Only a table that passed it can say
    /// *absent*.
    ///
    /// ```
    /// use packed_refs::{Found, IdKind, Table};
    /// let file = b"1111111111111111111111111111111111111111 refs/s/a\n\
    ///              2222222222222222222222222222222222222222 refs/s/b\n";
    /// let table = Table::check(IdKind::Sha1, file).unwrap();
    /// assert_eq!(table.len(), 2);
    /// assert!(matches!(table.find(b"refs/s/b"), Ok(Found::Charted(_))));
    /// assert_eq!(table.find(b"refs/s/c"), Ok(Found::Absent));
    ///
    /// // a line that can't be read: its place, its number in an editor, and its text
    /// let cut = [&file[..50], b"2222"].concat();
    /// let error = Table::check(IdKind::Sha1, &cut).unwrap_err();
    /// assert_eq!((error.number(), error.place(), error.line(), error.text()), (41, Some(50), Some(2), &b"2222"[..]));
    ///
    /// // a name twice: number 6, and where the second record starts
    /// let twice = [&file[..50], &file[..50]].concat();
    /// let error = Table::check(IdKind::Sha1, &twice).unwrap_err();
    /// assert_eq!((error.number(), error.place(), error.line()), (6, Some(50), None));
    /// assert_eq!(Table::new(IdKind::Sha1, &twice).line_at(50), Some(2));
    /// ```
    pub fn check(kind: IdKind, bytes: &'a (impl AsRef<[u8]> + ?Sized)) -> Result<Checked<'a>, Error> {
        let bytes = bytes.as_ref();
        let said = sys::check(kind.number(), bytes);
        match said.number {
            0 => Ok(Checked { table: Table::new(kind, bytes), header: header(bytes)?, count: said.count }),
            number => Err(refusal(number, bytes, said.place, said.line, said.text_len)),
        }
    }

    /// A table of which it is known that it passed the check, and what the check found.
    pub(crate) fn known(kind: IdKind, bytes: &'a [u8], header: Header, count: usize) -> Checked<'a> {
        Checked { table: Table { kind, bytes }, header, count }
    }

    /// The bytes of the file.
    #[must_use]
    pub fn bytes(&self) -> &'a [u8] {
        self.bytes
    }

    /// How long its ids are.
    #[must_use]
    pub fn kind(&self) -> IdKind {
        self.kind
    }

    /// A quick look for a name, in a handful of probes, in bytes that nobody checked. Behind an unreadable header nothing is looked for (number 2);
    /// 3 and 17 are as in [`ask`].
    ///
    /// [`Glance::NotFound`] is not worth *absent*. Here is why: the search goes by the middle, and one damaged line can send it the wrong way.
    ///
    /// ```
    /// use packed_refs::{ask, Asked, Glance, IdKind, Reason, Table};
    /// // refs/s/b stands in the file, but the line before it was torn out of place
    /// let file = b"1111111111111111111111111111111111111111 refs/s/z\n\
    ///              2222222222222222222222222222222222222222 refs/s/b\n";
    /// let table = Table::new(IdKind::Sha1, file);
    /// assert_eq!(table.glance(b"refs/s/z"), Ok(Glance::NotFound));
    /// let Ok(Asked::ChartedInDamagedFile { fault, .. }) = ask(IdKind::Sha1, file, b"refs/s/z") else { panic!() };
    /// assert_eq!(fault, Reason::Unsorted);
    /// ```
    pub fn glance(&self, name: impl AsRef<[u8]>) -> Result<Glance<'a>, Error> {
        self.glance_behind(header(self.bytes)?.body, name.as_ref())
    }

    /// The same behind a header that was read before.
    fn glance_behind(&self, body: usize, name: &[u8]) -> Result<Glance<'a>, Error> {
        let records = &self.bytes[body..];
        let said = sys::lookup(self.kind.number(), records, name);
        match said.number {
            0 => Ok(Glance::Charted(Record::at(self.kind, records, said.place, said.name_at, said.name_len, said.peeled_at).behind(body))),
            5 => Ok(Glance::NotFound),
            number => {
                let error = Error::at(number, body + said.place);
                match error.reason() {
                    reason if reason == Reason::Unsure || reason.is_bad_record() => Ok(Glance::Unreadable(error)),
                    _ => Err(error),
                }
            }
        }
    }

    /// The items of the file, damaged lines too. Number 2 where the header can't be read.
    pub fn items(&self) -> Result<Items<'a>, Error> {
        let said = sys::start(self.kind.number(), self.bytes);
        match said.number {
            0 => Ok(Items::walk(self.kind, self.bytes, said.place, said.line)),
            number => Err(refusal(number, self.bytes, 0, 0, said.text_len)),
        }
    }

    /// The items from a place on, whatever stands before them. A place inside a line is read from there. Lines are counted on from the number that is given
    /// for the place's own: 0 and 1 are where every file begins. Number 17 where the file is too large.
    ///
    /// ```
    /// use packed_refs::{IdKind, Table};
    /// // read behind a first line that is no header
    /// let mut items = Table::new(IdKind::Sha1, b"# rubbish\nmore\n").items_from(0, 1).unwrap();
    /// assert_eq!(items.next().unwrap().unwrap_err().line, Some(1));
    /// assert_eq!(items.next().unwrap().unwrap_err().line, Some(2));
    /// ```
    pub fn items_from(&self, place: usize, line: u64) -> Result<Items<'a>, Error> {
        match sys::walk(self.kind.number(), self.bytes, self.bytes.len(), line).number {
            0 => Ok(Items::walk(self.kind, self.bytes, place, line)),
            number => Err(Error::bare(number)),
        }
    }

    /// The line on which the item starts that starts at a place, by a walk there: for a place that is told without its line, as number 6's. Nothing where no
    /// item starts there.
    ///
    /// ```
    /// use packed_refs::{IdKind, Table};
    /// let file = b"1111111111111111111111111111111111111111 refs/s/b\n^3333333333333333333333333333333333333333\n\
    ///              2222222222222222222222222222222222222222 refs/s/a\n";
    /// let place = Table::check(IdKind::Sha1, file).unwrap_err().place().unwrap();
    /// assert_eq!((place, Table::new(IdKind::Sha1, file).line_at(place)), (92, Some(3)));
    /// assert_eq!(Table::new(IdKind::Sha1, file).line_at(93), None);
    /// ```
    #[must_use]
    pub fn line_at(&self, place: usize) -> Option<u64> {
        // Where the first line is no header, it is an item too.
        let mut items = self.items().or_else(|_| self.items_from(0, 1)).ok()?;
        while items.place() < place {
            let _ = items.next()?;
        }
        items.line().filter(|_| items.place() == place && place < self.bytes.len())
    }

    /// Where the record starts that a place lies in: behind the last LF before it, and one line back from a `^` line.
    ///
    /// ```
    /// use packed_refs::{IdKind, Table};
    /// let file = b"1111111111111111111111111111111111111111 refs/s/a\n^3333333333333333333333333333333333333333\n";
    /// assert_eq!(Table::new(IdKind::Sha1, file).record_start(70), 0);
    /// ```
    #[must_use]
    pub fn record_start(&self, place: usize) -> usize {
        sys::record_start(self.bytes, place)
    }
}

/// A table that passed the check. It can only be had from [`Table::check`] and [`CheckedFile::table`](crate::CheckedFile::table).
///
/// Its answers are not to be passed over:
///
/// ```compile_fail
/// #![deny(unused_must_use)]
/// # use packed_refs::{IdKind, Table};
/// Table::check(IdKind::Sha1, b"").unwrap().len();
/// ```
#[derive(Clone, Copy, Debug)]
#[must_use]
pub struct Checked<'a> {
    table: Table<'a>,
    header: Header,
    count: usize,
}

impl<'a> Checked<'a> {
    /// Looks a name up, in a handful of probes. An error is about the name alone: 3 where it breaks the name rules, 17 where it is too large.
    pub fn find(&self, name: impl AsRef<[u8]>) -> Result<Found<'a>, Error> {
        match self.table.glance_behind(self.header.body, name.as_ref())? {
            Glance::Charted(record) => Ok(Found::Charted(record)),
            Glance::NotFound => Ok(Found::Absent),
            // It is proved that this does not happen. If it did, it would still not be absent.
            Glance::Unreadable(error) => Err(error),
        }
    }

    /// All records, in name order.
    pub fn records(&self) -> Records<'a> {
        Records(self.table.items().expect("what passed the check has its start"))
    }

    /// The records whose name begins with a prefix, in name order. The prefix may be any bytes: it need not be a name, nor end at a slash.
    /// Number 17 where it is too large.
    ///
    /// ```
    /// use packed_refs::{IdKind, Table};
    /// let file = b"1111111111111111111111111111111111111111 refs/s/a\n\
    ///              2222222222222222222222222222222222222222 refs/s/b/c\n\
    ///              3333333333333333333333333333333333333333 refs/t/b\n";
    /// let table = Table::check(IdKind::Sha1, file).unwrap();
    /// let names: Vec<_> = table.with_prefix(b"refs/s/b").unwrap().map(|r| r.name).collect();
    /// assert_eq!(names, [b"refs/s/b/c"]);
    /// ```
    pub fn with_prefix(&self, prefix: impl AsRef<[u8]>) -> Result<Records<'a>, Error> {
        let prefix = prefix.as_ref();
        let body = self.header.body;
        let said = sys::prefix(self.table.kind.number(), &self.table.bytes[body..], prefix);
        match said.number {
            0 => Ok(Records(Items::with_prefix(self.table.kind, self.table.bytes, prefix, body + said.place))),
            number => {
                let records = &self.table.bytes[body..];
                let text = records.get(said.text_at..said.text_at + said.text_len).unwrap_or_default();
                Err(Error::told(number, Given { place: Some(body + said.text_at), line: None, text }))
            }
        }
    }

    /// How many records there are.
    #[must_use]
    pub fn len(&self) -> usize {
        self.count
    }

    /// Whether there is none.
    #[must_use]
    pub fn is_empty(&self) -> bool {
        self.count == 0
    }

    /// The file's header.
    pub fn header(&self) -> Header {
        self.header
    }

    /// The table as anyone may use it.
    pub fn table(&self) -> Table<'a> {
        self.table
    }
}

/// The records of a checked table.
#[derive(Clone, Debug)]
#[must_use = "the records are read as they are asked for"]
pub struct Records<'a>(Items<'a>);

impl<'a> Iterator for Records<'a> {
    type Item = Record<'a>;

    fn next(&mut self) -> Option<Record<'a>> {
        self.0.next().map(|item| item.expect("every item of a checked table is a record"))
    }
}

impl std::iter::FusedIterator for Records<'_> {}

/// The refusal of a call that was lent a whole file: its place, its line and the text that stands there. Number 2's place is the front. A place without a
/// text may be one in something else.
pub(crate) fn refusal(number: u32, file: &[u8], place: usize, line: u64, text_len: usize) -> Error {
    let text = if text_len == 0 { &[] } else { &file[place..place + text_len] };
    Error::told(number, Given { place: Some(place), line: Some(line), text })
}
