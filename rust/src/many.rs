//! Many names asked of one file at once.
use crate::{check_name, Asked, Error, IdKind, Reason, Record, Table};
use std::collections::HashMap;

/// What [`ask`](crate::ask) says of each name, in the names' order, for little more than the cost of one: the file is checked once, and each name is
/// a few probes in a file that passes. In one that does not, all items are gone through once more, and the first record of each name is kept.
///
/// ```
/// use packed_refs::{ask_many, Asked, IdKind, Reason};
/// let file = b"1111111111111111111111111111111111111111 refs/s/a\nrubbish\n";
/// let told = ask_many(IdKind::Sha1, file, &["refs/s/a", "refs/s/b", "refs//b"]);
/// assert!(matches!(told[0], Ok(Asked::ChartedInDamagedFile { fault: Reason::BadId, .. })));
/// assert_eq!(told[1].as_ref().unwrap_err().number(), 41);
/// assert_eq!(told[2].as_ref().unwrap_err().number(), 3);
/// ```
#[must_use]
pub fn ask_many<'a>(kind: IdKind, file: &'a (impl AsRef<[u8]> + ?Sized), names: &[impl AsRef<[u8]>]) -> Vec<Result<Asked<'a>, Error>> {
    let table = Table::new(kind, file);
    let error = match Table::check(kind, file) {
        Ok(checked) => return names.iter().map(|name| checked.find(name).map(Asked::from)).collect(),
        Err(error) => error,
    };
    if error.reason() == Reason::TooLarge {
        return names.iter().map(|_| Err(error.clone())).collect();
    }
    let names: Vec<Result<&[u8], Error>> = names.iter().map(|name| check_name(name).map(|()| name.as_ref())).collect();
    let firsts = first_records(table, names.iter().flatten().copied());
    let told = names.into_iter().map(|name| match firsts.get(name?) {
        Some(Some(record)) => Ok(Asked::ChartedInDamagedFile { record: *record, fault: error.reason() }),
        Some(None) | None => Err(error.clone()),
    });
    told.collect()
}

/// For each name the first record that has it, if any. Behind a line that is no header nothing is looked for.
fn first_records<'a, 'n>(table: Table<'a>, names: impl Iterator<Item = &'n [u8]>) -> HashMap<&'n [u8], Option<Record<'a>>> {
    let mut firsts: HashMap<&[u8], Option<Record<'a>>> = names.map(|name| (name, None)).collect();
    let mut missing = firsts.len();
    let Ok(items) = table.items() else { return firsts };
    for record in items.flatten() {
        if missing == 0 {
            break;
        }
        if let Some(first @ None) = firsts.get_mut(record.name) {
            *first = Some(record);
            missing -= 1;
        }
    }
    firsts
}
