//! A name that is a directory of another: Git keeps a reference as a file of its name, and can't keep both.
use crate::edit_lines::{EditLine, EditLines};
use crate::refusal::{Refusal, Trouble};
use crate::words::Quoted;
use packed_refs::Checked;

/// Refuses edits by which a name of the new table becomes a directory of another. Of two names that stood in the old table already nothing is said: the
/// edits do not make them so.
///
/// It is one pass over each table, in name order: behind a name come all those that begin with it, and only then others.
pub fn refuse(lines: &EditLines<'_>, old: &Checked<'_>, new: &Checked<'_>) -> Result<(), Trouble> {
    let added = added(lines, old);
    if added.is_empty() {
        return Ok(());
    }
    let mut added = added.into_iter().peekable();
    // Those names that the present one begins with, the shortest first.
    let mut begins: Vec<Name<'_>> = Vec::new();
    for record in new.records() {
        let line = added.next_if(|line| line.name == record.name).map(|line| line.number);
        while begins.last().is_some_and(|last| !record.name.starts_with(last.name)) {
            begins.pop();
        }
        let name = Name::new(record.name, line, begins.last());
        if let Some((directory, line)) = name.fault() {
            return Err(refusal(lines, line, directory, name.name).into());
        }
        begins.push(name);
    }
    Ok(())
}

/// The updates of names that the old table has not, in name order.
fn added<'a>(lines: &'a EditLines<'_>, old: &Checked<'_>) -> Vec<&'a EditLine<'a>> {
    let mut updates: Vec<&EditLine<'_>> = lines.lines.iter().filter(|line| !line.ids.is_empty()).collect();
    updates.sort_unstable_by_key(|line| line.name);
    let mut records = old.records().peekable();
    updates.retain(|line| {
        while records.next_if(|record| record.name < line.name).is_some() {}
        !records.peek().is_some_and(|record| record.name == line.name)
    });
    updates
}

/// A name of the new table.
struct Name<'a> {
    name: &'a [u8],
    /// The line of the edit that adds it, if one does.
    line: Option<usize>,
    /// The nearest name that is a directory of it.
    directory: Option<&'a [u8]>,
    /// The nearest of those that an edit adds, with its line.
    added: Option<(&'a [u8], usize)>,
}

impl<'a> Name<'a> {
    /// A name behind the longest one that it begins with. If a slash comes next, that one is a directory of it; else they have the same directories.
    fn new(name: &'a [u8], line: Option<usize>, begin: Option<&Name<'a>>) -> Name<'a> {
        let (directory, added) = match begin {
            None => (None, None),
            Some(begin) if name.get(begin.name.len()) == Some(&b'/') => {
                (Some(begin.name), begin.line.map(|line| (begin.name, line)).or(begin.added))
            }
            Some(begin) => (begin.directory, begin.added),
        };
        Name { name, line, directory, added }
    }

    /// A directory of it that the edits make one, and the line that does.
    fn fault(&self) -> Option<(&'a [u8], usize)> {
        self.added.or(self.line.and_then(|line| self.directory.map(|directory| (directory, line))))
    }
}

fn refusal(lines: &EditLines<'_>, line: usize, directory: &[u8], name: &[u8]) -> Refusal {
    let words = format!(
        "{}, line {line}: {} would be a directory of {}, and Git can't clone such a table. Nothing was written. Mend what built the name and merge the \
         whole list, or say --allow-nested-names: an update that is left out has its message sent again.",
        lines.input.name,
        Quoted(directory),
        Quoted(name)
    );
    Refusal { file: Some(lines.input.given.clone()), line: Some(line as u64), ..Refusal::new(words) }
}

#[cfg(test)]
mod tests {
    use super::refuse;
    use crate::edit_lines::EditLines;
    use crate::input::Input;
    use packed_refs::{IdKind, Table};
    use std::ffi::OsStr;

    const NAMES: [&str; 9] = ["r/a", "r/a-", "r/a-/b", "r/a/b", "r/a/b-", "r/a/b/c", "r/a0", "r/c", "r/c/d"];
    const ID: &str = "1111111111111111111111111111111111111111";

    fn input(lines: impl Iterator<Item = String>) -> Input {
        Input::new(OsStr::new("-"), lines.collect::<String>().into_bytes())
    }

    fn is_directory(one: &str, other: &str) -> bool {
        other.strip_prefix(one).is_some_and(|rest| rest.starts_with('/'))
    }

    /// Every old table of these names with every one or two updates: refused exactly if a pair is new.
    #[test]
    fn only_pairs_that_the_edits_make_are_refused() {
        let mut refused = 0;
        for set in 0..1 << NAMES.len() {
            let old: Vec<&str> = NAMES.iter().enumerate().filter(|(at, _)| set >> at & 1 == 1).map(|(_, name)| *name).collect();
            let old_table = input(old.iter().map(|name| format!("{ID} {name}\n")));
            for one in NAMES {
                for two in NAMES {
                    let mut updates = vec![two, one];
                    updates.dedup();
                    let mut new = [old.clone(), updates.clone()].concat();
                    new.sort_unstable();
                    new.dedup();
                    let pairs = new.iter().flat_map(|one| new.iter().map(move |other| (*one, *other)));
                    let makes_one =
                        pairs.filter(|(one, other)| is_directory(one, other)).any(|(a, b)| !old.contains(&a) || !old.contains(&b));

                    let edits = input(updates.iter().map(|name| format!("update {name} {ID}\n")));
                    let new_table = input(new.iter().map(|name| format!("{ID} {name}\n")));
                    let (Ok(old_checked), Ok(new_checked), Ok(lines)) = (
                        Table::check(IdKind::Sha1, &old_table.bytes),
                        Table::check(IdKind::Sha1, &new_table.bytes),
                        EditLines::read(&edits),
                    ) else {
                        panic!("the tables pass, and the edits can be read");
                    };
                    assert_eq!(refuse(&lines, &old_checked, &new_checked).is_err(), makes_one, "{old:?} and {updates:?}");
                    refused += usize::from(makes_one);
                }
            }
        }
        assert!(refused > 1_000);
    }
}
