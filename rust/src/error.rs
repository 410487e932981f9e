//! A refusal: its reason, with what is given beside its number.
use crate::numbers::{Beside, Reason};
use crate::Escaped;
use std::fmt;
use std::sync::Arc;

/// How much of a line an error keeps.
const KEPT: usize = 8192;

/// How much of it is shown.
const SHOWN: usize = 200;

/// Why a question was not answered.
///
/// It prints as a sentence with the number of docs/NUMBERS.md, what it means, where, and what to do:
///
/// ```
/// use packed_refs::{IdKind, Reason, Table};
/// let error = Table::check(IdKind::Sha1, b"no record\n").unwrap_err();
/// assert_eq!((error.number(), error.reason()), (41, Reason::BadId));
/// assert_eq!((error.place(), error.line(), error.text()), (Some(0), Some(1), &b"no record"[..]));
/// let words = "number 41: a record's id can't be read; the record starts at byte 0, on line 1; it reads 'no record'. Do not send. ";
/// assert!(error.to_string().starts_with(words));
/// ```
///
/// 0 (done), 5 (absent), 13 (nothing to do) and 14 (remove the file) are answers and never come as an error.
#[derive(Clone, PartialEq, Eq)]
pub struct Error {
    reason: Reason,
    place: Option<usize>,
    line: Option<u64>,
    // shared, since one error is told of many names
    text: Arc<[u8]>,
    text_len: usize,
}

/// What a reply gives beside its number, in one form for all replies. Which of it belongs to the number is the table's to say.
#[derive(Clone, Copy, Default)]
pub(crate) struct Given<'a> {
    /// The reply's place, counted in the file or in the edit list.
    pub place: Option<usize>,
    /// The line of a bad record.
    pub line: Option<u64>,
    /// Its text, or number 2's.
    pub text: &'a [u8],
}

impl Error {
    /// The refusal of a call that gave this number. Where the number is no refusal that is a refusal too: nothing is guessed.
    pub(crate) fn told(number: u32, given: Given<'_>) -> Error {
        let reason = Reason::of(number);
        let (place, line, text): (_, _, &[u8]) = match reason.row().beside {
            Beside::Nothing => (None, None, b""),
            Beside::FirstLine => (given.place, None, given.text),
            Beside::Line => (given.place, given.line, given.text),
            Beside::Record | Beside::Edit => (given.place, None, b""),
        };
        Error { reason, place, line, text: text[..text.len().min(KEPT)].into(), text_len: text.len() }
    }

    /// The refusal of a call that gives nothing beside any number.
    pub(crate) fn bare(number: u32) -> Error {
        Error::told(number, Given::default())
    }

    /// The refusal of a call that gave a place.
    pub(crate) fn at(number: u32, place: usize) -> Error {
        Error::told(number, Given { place: Some(place), ..Given::default() })
    }

    /// Why, as a case to match on.
    #[must_use]
    pub fn reason(&self) -> Reason {
        self.reason
    }

    /// The number of docs/NUMBERS.md.
    #[must_use]
    pub fn number(&self) -> u32 {
        self.reason.number()
    }

    /// Where it happened, counted in bytes from 0: in the file ([`Error::place_in_file`]) or in the edit list ([`Error::place_in_edits`]).
    #[must_use]
    pub fn place(&self) -> Option<usize> {
        self.place
    }

    /// Where the line or the record starts that it is about, counted in the file, beside the numbers that give such a place.
    #[must_use]
    pub fn place_in_file(&self) -> Option<usize> {
        match self.reason.row().beside {
            Beside::FirstLine | Beside::Record | Beside::Line => self.place,
            Beside::Edit | Beside::Nothing => None,
        }
    }

    /// Where the edit begins that it is about, counted in the edit list, beside the numbers that give such a place.
    #[must_use]
    pub fn place_in_edits(&self) -> Option<usize> {
        match self.reason.row().beside {
            Beside::Edit => self.place,
            Beside::FirstLine | Beside::Record | Beside::Line | Beside::Nothing => None,
        }
    }

    /// For numbers 41 to 45 the line that the record starts on, as an editor counts: one more than the line feeds before it. Else nothing, also where a
    /// quick look ([`Table::glance`](crate::Table::glance)) met the record. Of number 6's place [`Table::line_at`](crate::Table::line_at) tells the line.
    #[must_use]
    pub fn line(&self) -> Option<u64> {
        self.line
    }

    /// For numbers 41 to 45 that whole line from the place on, without its LF; a CR before the LF stays. For number 2 the line that is no header, without
    /// its line end. Either is cut off behind 8,192 bytes. Else nothing.
    #[must_use]
    pub fn text(&self) -> &[u8] {
        &self.text
    }

    /// How long that text is, however much of it was kept.
    #[must_use]
    pub fn text_len(&self) -> usize {
        self.text_len
    }

    /// What the number means, in a few words.
    #[must_use]
    pub fn meaning(&self) -> &'static str {
        self.reason.row().meaning
    }

    /// The number, what it means, and where: the sentence before [`Error::what_to_do`].
    #[must_use]
    pub fn what_is_wrong(&self) -> String {
        self.reason.to_string() + &self.whereabouts()
    }

    /// What the sender does, and what a person does about it.
    #[must_use]
    pub fn what_to_do(&self) -> String {
        let row = self.reason.row();
        format!("{} {}", row.sender, row.person)
    }

    /// What is given beside the number, in words.
    fn whereabouts(&self) -> String {
        match (self.reason.row().beside, self.place) {
            (Beside::Record, Some(place)) => format!("; the record starts at byte {place}"),
            (Beside::Line, Some(place)) => match self.line {
                Some(line) => format!("; the record starts at byte {place}, on line {line}{}", self.reads()),
                None => format!("; the record starts at byte {place}"),
            },
            (Beside::Edit, Some(place)) => format!("; that edit begins at byte {place} of the list"),
            (Beside::FirstLine, Some(0)) => self.reads(),
            (Beside::FirstLine, Some(place)) => format!("; it starts at byte {place}{}", self.reads()),
            (Beside::Nothing, _) | (_, None) => String::new(),
        }
    }

    /// The text, as much of it as is shown.
    fn reads(&self) -> String {
        let shown = &self.text[..self.text.len().min(SHOWN)];
        let rest = match self.text_len - shown.len() {
            0 => String::new(),
            more => format!(" and {more} bytes more"),
        };
        format!("; it reads '{}'{rest}", Escaped(shown))
    }
}

impl fmt::Display for Error {
    fn fmt(&self, f: &mut fmt::Formatter<'_>) -> fmt::Result {
        write!(f, "{}. {}", self.what_is_wrong(), self.what_to_do())
    }
}

impl fmt::Debug for Error {
    fn fmt(&self, f: &mut fmt::Formatter<'_>) -> fmt::Result {
        let mut shown = f.debug_struct("Error");
        shown.field("number", &self.number()).field("reason", &self.reason).field("place", &self.place).field("line", &self.line);
        if self.text_len > 0 {
            shown.field("text", &Escaped(&self.text)).field("text_len", &self.text_len);
        }
        shown.finish()
    }
}

impl std::error::Error for Error {}

#[cfg(test)]
mod tests {
    use super::*;
    use crate::numbers::{ANSWERS, REFUSALS};

    /// A number that this table does not know, and an answer where a refusal was asked for, are refusals that say so.
    #[test]
    fn a_foreign_number_is_never_an_answer() {
        let answers = ANSWERS.iter().map(|row| row.number);
        for number in answers.chain([18, 40, 46, 999, u32::MAX]) {
            let error = Error::told(number, Given { place: Some(7), line: Some(3), text: b"text" });
            assert_eq!((error.number(), error.reason()), (number, Reason::Foreign(number)));
            assert_eq!((error.place(), error.line(), error.text()), (None, None, &b""[..]));
            let words = error.to_string();
            assert!(words.starts_with(&format!("number {number}: ")) && words.contains("Do not send."), "{words}");
            assert!(words.contains("The program and the library do not belong together"), "{words}");
        }
    }

    /// Whatever the number, the place, the line and the text that belong to it are kept, and said; what does not belong to it is not.
    #[test]
    fn what_is_given_beside_a_number_is_kept() {
        for reason in REFUSALS {
            let row = reason.row();
            let error = Error::told(row.number, Given { place: Some(70), line: Some(9), text: b"# t\x1b" });
            assert_eq!((error.number(), error.reason()), (row.number, *reason));
            let words = error.to_string();
            assert!(words.starts_with(&format!("number {}: {}", row.number, row.meaning)), "{words}");
            assert_eq!(words, format!("{}. {}", error.what_is_wrong(), error.what_to_do()));
            assert_eq!(error.place().is_some(), row.beside != Beside::Nothing);
            assert_eq!(words.contains("byte 70"), row.beside != Beside::Nothing, "{words}");
            assert_eq!(error.line(), (row.beside == Beside::Line).then_some(9));
            assert_eq!(words.contains("on line 9; it reads"), row.beside == Beside::Line, "{words}");
            let has_text = matches!(row.beside, Beside::FirstLine | Beside::Line);
            assert_eq!(error.text(), if has_text { &b"# t\x1b"[..] } else { b"" });
            assert_eq!(words.contains("it reads '# t\\x1b'"), has_text, "{words}");
            assert_eq!(error.place_in_file().or(error.place_in_edits()), error.place());
            assert_eq!(error.place_in_edits().is_some(), row.beside == Beside::Edit);
        }
    }

    /// Of a long line the front is kept and less of it shown; both say how much there is more. An empty one is a line too.
    #[test]
    fn a_line_is_kept_as_far_as_it_is_not_very_long() {
        for (len, kept, words) in [
            (0, 0, "; it reads ''. "),
            (200, 200, "xx'. "),
            (201, 201, "xx' and 1 bytes more. "),
            (8192, 8192, "xx' and 7992 bytes more. "),
            (9000, 8192, "xx' and 8800 bytes more. "),
        ] {
            let text = vec![b'x'; len];
            let error = Error::told(41, Given { place: Some(70), line: Some(9), text: &text });
            assert_eq!((error.text(), error.text_len()), (&text[..kept], len));
            assert!(error.to_string().contains(words), "{len}: {error}");
        }
        // a quick look tells no line, and no text
        let words = Error::at(45, 70).what_is_wrong();
        assert!(words.ends_with("; the record starts at byte 70"), "{words}");
    }
}
