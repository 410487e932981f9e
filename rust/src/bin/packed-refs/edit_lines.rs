//! Edits as lines of text.
use crate::input::Input;
use crate::refusal::{Refusal, Trouble};
use crate::rule;
use crate::words::{shown, Quoted};
use packed_refs::{check_name, Edits, Error, IdKind, Reason};
use std::ffi::OsStr;

/// The longest name that an edit may have, and the most edits that a merge takes.
const LONGEST_NAME: usize = 4096;
const MOST_EDITS: usize = 4096;

/// One edit: the line that it stands on, its name, and for an update its ids.
pub struct EditLine<'a> {
    pub number: usize,
    pub name: &'a [u8],
    pub ids: Vec<&'a [u8]>,
}

/// The edits of a file. They have one kind of ids, or none where all are deletes.
pub struct EditLines<'a> {
    pub input: &'a Input,
    pub kind: Option<IdKind>,
    pub lines: Vec<EditLine<'a>>,
}

/// Edits as a merge takes them, and where each of them begins there.
pub struct EditList {
    pub edits: Edits,
    begins: Vec<usize>,
}

impl<'a> EditLines<'a> {
    /// Reads `update NAME ID [PEELED]` and `delete NAME`, one a line. The last line has its line end too: without it the list may have been cut short,
    /// and a name cut short may be another one's. Behind the first edit too many nothing is read: the merge refuses that one.
    pub fn read(input: &'a Input) -> Result<EditLines<'a>, Trouble> {
        let mut edits = EditLines { input, kind: None, lines: Vec::new() };
        for (at, line) in input.bytes.split_inclusive(|b| *b == b'\n').enumerate() {
            if edits.lines.len() > MOST_EDITS {
                break;
            }
            let number = at + 1;
            let malformed = |what: &str| edits.refused(number, Reason::MalformedEdits, what);
            let Some(line) = line.strip_suffix(b"\n") else {
                return Err(malformed("the line has no line end: the list may have been cut short").into());
            };
            let line = line.strip_suffix(b"\r").unwrap_or(line);
            // A fifth word is one too many, and so need not be counted.
            let words: Vec<&[u8]> = line.split(|b| *b == b' ' || *b == b'\t').filter(|word| !word.is_empty()).take(5).collect();
            let (name, ids) = match words.as_slice() {
                [] => continue,
                [first, ..] if first.starts_with(b"#") => continue,
                [b"delete", name] => (*name, &[][..]),
                [b"update", name, ids @ ..] if (1..=2).contains(&ids.len()) => (*name, ids),
                _ => return Err(malformed("the line is neither 'update NAME ID [PEELED]' nor 'delete NAME'").into()),
            };
            let kind = edits.kind_with(number, ids)?;
            edits.test_name(number, name)?;
            edits.kind = kind;
            edits.lines.push(EditLine { number, name, ids: ids.to_vec() });
        }
        Ok(edits)
    }

    /// The kind of the edits so far and of these ids.
    fn kind_with(&self, number: usize, ids: &[&[u8]]) -> Result<Option<IdKind>, Refusal> {
        let mut kind = self.kind;
        for id in ids {
            let own = [IdKind::Sha1, IdKind::Sha256].into_iter().find(|kind| kind.digits() == id.len());
            let Some(own) = own.filter(|_| id.iter().all(u8::is_ascii_hexdigit)) else {
                return Err(self.refused(number, Reason::MalformedEdits, &format!("{} is neither 40 hex digits nor 64", Quoted(id))));
            };
            if *kind.get_or_insert(own) != own {
                return Err(self.refused(number, Reason::MalformedEdits, "an id has 40 digits and another one 64"));
            }
        }
        Ok(kind)
    }

    fn test_name(&self, number: usize, name: &[u8]) -> Result<(), Refusal> {
        let what = match check_name(name) {
            Ok(()) if name.len() <= LONGEST_NAME => return Ok(()),
            Ok(()) => format!("the name has {} bytes, and at most 4,096 are taken", name.len()),
            Err(_) => format!("the name {} breaks a name rule: {}", Quoted(name), rule::broken(name)),
        };
        Err(self.refused(number, Reason::BadEditName, &what))
    }

    /// The list for a merge with ids of a kind.
    pub fn list(&self, kind: IdKind) -> Result<EditList, Trouble> {
        let mut list = EditList { edits: Edits::new(kind), begins: Vec::new() };
        for line in &self.lines {
            list.begins.push(list.edits.bytes().len());
            let added = match line.ids.as_slice() {
                [] => list.edits.delete(line.name),
                [id] => list.edits.update(line.name, id),
                [id, peeled, ..] => list.edits.update_peeled(line.name, id, peeled),
            };
            if let Err(error) = added {
                let what = match error.reason() {
                    Reason::MalformedEdits => format!("an id has not {} digits, as the old file's have", kind.digits()),
                    _ => error.meaning().to_string(),
                };
                return Err(self.refused(line.number, error.reason(), &what).into());
            }
        }
        Ok(list)
    }

    /// What a merge refused about the list, told by lines of the file.
    pub fn refusal(&self, list: &EditList, place: usize, error: &Error) -> Refusal {
        let Some(line) = list.begins.iter().position(|begin| *begin == place).map(|at| &self.lines[at]) else {
            return Refusal::new(format!("{}: {error}", self.input.name));
        };
        let what = match error.reason() {
            Reason::TwoEdits => {
                let first = self.lines.iter().find(|other| other.name == line.name).map_or(0, |other| other.number);
                format!("{} was edited on line {first} already", Quoted(line.name))
            }
            _ => error.meaning().to_string(),
        };
        self.refused(line.number, error.reason(), &what)
    }

    /// The number of a reason, what is the matter in our own words, and what to do.
    fn refused(&self, line: usize, reason: Reason, what: &str) -> Refusal {
        let row = reason.row();
        let words = format!("{}, line {line}: number {}: {what}. {} {}", self.input.name, row.number, row.sender, row.person);
        Refusal { number: Some(row.number), file: Some(self.input.given.clone()), line: Some(line as u64), ..Refusal::new(words) }
    }
}

/// Refuses to write over the edits.
pub fn are_not_output(input: &Input, edits: &OsStr, new: &OsStr) -> Result<(), Trouble> {
    if input.is_file(new.as_ref()) {
        return Err(Trouble::refused(format!("{} are the edits themselves: they would be lost. Name another file for -o.", shown(edits))));
    }
    Ok(())
}
