//! The one table of the numbers: what each means, what is given beside it, and what to do.
//!
//! Everything on this side of the boundary that depends on a number asks this table. A number that the library comes to give and that has no row
//! here is [`Reason::Foreign`], which is never an answer; a row that is added here has its reason, its place and its words everywhere.
//! docs/NUMBERS.md is the same table for people, and tests/numbers.rs holds the two together.
//!
//! The words are read at night. Of each it was asked: if a tired person does exactly this, can a name that was charted become absent?
use std::fmt;

/// What is given beside a number.
#[derive(Clone, Copy, Debug, PartialEq, Eq, Hash)]
pub enum Beside {
    /// Nothing, of a refusal. (What an answer gives is its own matter.)
    Nothing,
    /// The file's first line.
    FirstLine,
    /// Where a record starts in the file.
    Record,
    /// Where a record starts in the file, and its line: the number and the text. (A lookup gives the place alone.)
    Line,
    /// Where an edit begins in the edit list.
    Edit,
}

impl Beside {
    /// In words, as docs/NUMBERS.md has it.
    #[must_use]
    pub fn words(self) -> &'static str {
        match self {
            Beside::Nothing => "nothing",
            Beside::FirstLine => "that line's text",
            Beside::Record => "where the record starts in the file",
            Beside::Line => "where the record starts in the file, its line's number and text",
            Beside::Edit => "where the edit begins in the list",
        }
    }
}

/// A row of the table.
#[derive(Clone, Copy, Debug, PartialEq, Eq)]
pub struct Row {
    /// The number.
    pub number: u32,
    /// What it means, in a few words.
    pub meaning: &'static str,
    /// What is given beside it.
    pub beside: Beside,
    /// What the sender does.
    pub sender: &'static str,
    /// What a person does.
    pub person: &'static str,
}

macro_rules! numbers {
    (
        answers { $($answer:literal: $done:literal, $go:literal, $then:literal;)* }
        refusals { $($number:literal $reason:ident $beside:ident: $meaning:literal, $sender:literal, $person:expr;)* }
    ) => {
        /// Why a question was not answered: the refusals of docs/NUMBERS.md.
        #[derive(Clone, Copy, Debug, PartialEq, Eq, Hash)]
        #[non_exhaustive]
        pub enum Reason {
            $(#[doc = concat!("Number ", $number, ": ", $meaning, ".")] $reason,)*
            /// A number that is no refusal of this table: the program and the library do not belong together.
            Foreign(u32),
        }

        impl Reason {
            /// The reason that has a number. A number without a row here is none of them, and neither is an answer's.
            pub(crate) fn of(number: u32) -> Reason {
                match number {
                    $($number => Reason::$reason,)*
                    foreign => Reason::Foreign(foreign),
                }
            }

            /// The number of docs/NUMBERS.md.
            #[must_use]
            pub fn number(self) -> u32 {
                self.row().number
            }

            /// The row of the table.
            #[must_use]
            pub fn row(self) -> Row {
                match self {
                    $(Reason::$reason => Row {
                        number: $number, meaning: $meaning, beside: Beside::$beside, sender: $sender, person: $person,
                    },)*
                    Reason::Foreign(number) => Row {
                        number,
                        meaning: "the library gave a number that is no refusal of this question",
                        beside: Beside::Nothing,
                        sender: "Do not send.",
                        person: "The program and the library do not belong together: build both anew.",
                    },
                }
            }
        }

        /// What the answers among the numbers mean: those that are no refusal.
        pub const ANSWERS: &[Row] = &[
            $(Row { number: $answer, meaning: $done, beside: Beside::Nothing, sender: $go, person: $then },)*
        ];

        /// Every refusal that the library gives.
        pub const REFUSALS: &[Reason] = &[$(Reason::$reason),*];
    };
}

/// What is lost by a repair that takes the short way; it stands in the advice on every bad record.
macro_rules! lost {
    () => {
        " If a line is deleted, or a whole older file is put in the place of this one, names that are charted become absent and their messages are sent \
         again."
    };
}

/// A line whose end was lost takes the next one with it, and its name.
macro_rules! joined {
    () => {
        " If two lines ran into one there, restore both."
    };
}

/// Damage within a line may be the end of a file that was cut.
macro_rules! cut {
    () => {
        " Where the file ends there, all that stood behind was cut off too: restore it as well."
    };
}

numbers! {
    // number: what it means, what the sender does, what a person does
    answers {
        0: "done: found, passed, read or merged",
            "A lookup's: stop, the name is charted. If `ask` gives a fault beside it, also call someone.",
            "Beside a fault of `ask`: the file does not pass the check, and the record may itself be what the damage made. Follow the row of the \
             fault's number. Else nothing.";
        5: "not found",
            "From `ask`, or from a lookup in a file that passed the check: absent, it may be sent. From a lookup in a file that nobody \
             checked: ask again with `ask`.",
            "Nothing.";
        13: "nothing to do: no update, and no delete names an old record",
            "Nothing changed.",
            "Keep the old file. If a delete was meant to hit something, look for a misspelt name.";
        14: "no record remains",
            "Every name is absent once the file is removed.",
            "Remove the old file, if the list was meant to delete every record. If it was not, keep the file and mend the list.";
    }
    // number, reason, what is given beside it: what it means, what the sender does, what a person does
    refusals {
        1 UnknownKind Nothing: "the id kind is neither 1 (40 digits) nor 2 (64)",
            "Do not send.",
            "Mend the call: it says how many digits the file's ids have.";
        2 NoHeader FirstLine: "the first line begins with # and is no header",
            "Do not send.",
            "Copy the file, then look at that line. If it holds digits or a name it was a record: restore it as one. Only a line that \
             was a header is replaced, by '# pack-refs with: sorted ' with its LF, which claims least. A whole older file lacks every \
             confirmation since it was written: those messages would be sent again.";
        3 BadName Nothing: "the name breaks the name rules",
            "Do not send.",
            "Mend what built the name, and ask again for this message's own name. What is said of another name says nothing about this \
             message.";
        4 Unsure Nothing: "the search met a line that can't be read, and no record of the name",
            "Do not send.",
            "Ask again with `ask`, which goes through the whole file, and run the check: it says which line is bad, and what to do about it.";
        6 Unsorted Record: "a name is not greater than the one before it",
            "Do not send.",
            "Two files were mixed, or a line was moved. Copy the file, then put each record, with its ^ line, where its name belongs; of \
             a name that stands twice one record stays. No name may be lost: its message would be sent again.";
        7 MalformedEdits Edit: "the edit list is malformed",
            "Hold back what the list names: nothing was written.",
            "Mend the program that made the list, and merge the whole list.";
        8 BadEditName Edit: "a name in the edit list is empty, over 4,096 bytes, or breaks the name rules",
            "Hold back what the list names: nothing was written.",
            "Mend what built that name, and merge the whole list. An update that is left out has its message sent again.";
        9 TooManyEdits Edit: "there are more than 4,096 edits",
            "Hold back what the list names: nothing was written.",
            "Make two lists of it, and merge both.";
        10 ShortIndex Nothing: "the index is shorter than the number of edits",
            "Hold back what the list names: nothing was written.",
            "Mend the call: an index of 4,096 entries always suffices.";
        11 TwoEdits Edit: "two edits have one name",
            "Hold back what the list names: nothing was written.",
            "See in the chart which of the two holds. A delete of a name whose message is charted has it sent again.";
        12 ShortOutput Nothing: "the new file is longer than the room for it",
            "Hold back what the list names: nothing was written.",
            "Give it room for the old file, twice the list and 46 bytes: that always suffices. From Rust it means that there was not enough memory.";
        15 UnreadableLoose Nothing: "the loose content can't be read",
            "Do not send.",
            "Restore the loose file's content from the chart or from another copy. If it is removed, its name becomes absent.";
        16 BadTarget Nothing: "the symbolic target breaks the name rules",
            "Do not send.",
            "Restore the loose file's content, the name that it leads to. If it is removed, its own name becomes absent.";
        17 TooLarge Nothing: "an input is over 1,073,741,824 bytes",
            "Do not send.",
            "See whether the right file was named. A table that has grown so large is not to be split: a name in one part is absent from \
             the other. Call whoever keeps it.";
        41 BadId Line: "a record's id can't be read",
            "Do not send.",
            concat!(
                "Copy the file, then restore the whole line at that place, its id and its name, from the chart or from another copy of that very \
                 line: an id can't be guessed. A line that begins with ^ is the ^ line of the record above it, which may be bad or missing: restore that \
                 too. If a name stands in it, it was a record: restore it as one.",
                joined!(),
                cut!(),
                lost!()
            );
        42 NoSpace Line: "no space stands behind a record's id",
            "Do not send.",
            concat!(
                "Copy the file, then restore the line at that place, its id and its name, from last night's file if exactly one line there has that id \
                 and what is left of the name, and that name stands nowhere else in this file, else from the chart or from another copy.",
                joined!(),
                cut!(),
                lost!()
            );
        43 BadLineEnd Line: "a record's line is not ended properly",
            "Do not send.",
            concat!(
                "Copy the file, then restore the line at that place from last night's file if exactly one line there begins with what is left of it, \
                 and that name stands nowhere else in this file, else from the chart or from another copy. Do not just add the line end: a name that \
                 was cut short is another name.",
                joined!(),
                cut!(),
                lost!()
            );
        44 BadRecordName Line: "a record's name breaks the name rules",
            "Do not send.",
            concat!(
                "Copy the file, then restore the name at that place as the chart or another copy of that line has it. A space or a ^ in it may come from a \
                 second line. A line that is as it was written has a name that breaks a rule, as one with a part that ends with .lock: mend it there \
                 and in the sender.",
                joined!(),
                lost!()
            );
        45 BadPeeled Line: "a record's ^ line can't be read",
            "Do not send.",
            concat!(
                "Copy the file, then restore the ^ line below that record from another copy, or from the tag that the record's id names; the record's \
                 own line can be read. If a name stands in the ^ line, a record became it or ran into it: restore that one as a line of its own. If \
                 another copy has no ^ line there, or the record's id names no tag, a record stood there: restore that record. Do not delete the ^ \
                 line: it may have been a record.",
                cut!(),
                lost!()
            );
    }
}

impl Reason {
    /// Whether a part of a record can't be read: numbers 41 to 45.
    #[must_use]
    pub fn is_bad_record(self) -> bool {
        use Reason::{BadId, BadLineEnd, BadPeeled, BadRecordName, NoSpace};
        matches!(self, BadId | NoSpace | BadLineEnd | BadRecordName | BadPeeled)
    }
}

/// The number and what it means.
impl fmt::Display for Reason {
    fn fmt(&self, f: &mut fmt::Formatter<'_>) -> fmt::Result {
        let row = self.row();
        write!(f, "number {}: {}", row.number, row.meaning)
    }
}
