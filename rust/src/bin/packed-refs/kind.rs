//! How many digits the ids of a table have. Nobody has to say it: the records that can be read do.
use crate::input::Input;
use crate::items::all_items;
use crate::progress::Progress;
use crate::refusal::{Refusal, Trouble};
use crate::words::count;
use packed_refs::{Checked, Error, IdKind, Reason, Table};

/// A table with what the check says of it.
pub struct Judged<'a> {
    pub kind: IdKind,
    pub check: Result<Checked<'a>, Error>,
}

/// So many bytes are looked at between two looks at what was found.
const BLOCK: usize = 4096;

/// Checks a table with the kind that was asked for, or else with the kind of its records. No line is a record of both kinds: so a table that passes with
/// a record has that kind, and of a damaged one the good records are counted.
pub fn judge<'a>(forced: Option<IdKind>, input: &'a Input) -> Result<Judged<'a>, Trouble> {
    let _progress = Progress::new(format!("checking {}", input.name), None);
    let check = |kind| Table::check(kind, &input.bytes);
    if let Some(kind) = forced {
        let check_of_it = check(kind);
        if check_of_it.is_err() && check(other(kind)).is_ok() {
            return Err(passes_otherwise(input, kind).into());
        }
        return Ok(Judged { kind, check: check_of_it });
    }
    let short = check(IdKind::Sha1);
    if short.is_ok() {
        return Ok(Judged { kind: IdKind::Sha1, check: short });
    }
    let long = check(IdKind::Sha256);
    if long.is_ok() {
        return Ok(Judged { kind: IdKind::Sha256, check: long });
    }
    let kind = kind_of_records(input)?;
    Ok(Judged { kind, check: if kind == IdKind::Sha1 { short } else { long } })
}

/// The kind alone, for who goes through all items and needs no check of them.
pub fn kind_of(forced: Option<IdKind>, input: &Input) -> Result<IdKind, Trouble> {
    if forced.is_some() {
        return judge(forced, input).map(|judged| judged.kind);
    }
    let _progress = Progress::new(format!("looking through {}", input.name), None);
    kind_of_records(input)
}

/// The kind of the records that can be read: the shorter one where there are none.
fn kind_of_records(input: &Input) -> Result<IdKind, Trouble> {
    if !may_have_long(&input.bytes) {
        return Ok(IdKind::Sha1);
    }
    match count_records(&input.bytes) {
        Ok((_, 0)) | Err(_) => Ok(IdKind::Sha1),
        Ok((0, _)) => Ok(IdKind::Sha256),
        Ok((short, long)) => Err(both(input, short, long).into()),
    }
}

/// Whether a space stands on any line where a record with an id of 64 digits has it. Without one there is no such record, and no walk is needed to see that.
fn may_have_long(bytes: &[u8]) -> bool {
    let at = IdKind::Sha256.digits();
    let behind = bytes.get(at + 1..).unwrap_or_default();
    // Within a block there is no way out at the first one: so it is many bytes at a time.
    let is_begun = |is: bool, (end, space): (&u8, &u8)| is | ((*end == b'\n') & (*space == b' '));
    let is_in = |(ends, spaces): (&[u8], &[u8])| ends.iter().zip(spaces).fold(false, is_begun);
    bytes.get(at) == Some(&b' ') || bytes.chunks(BLOCK).zip(behind.chunks(BLOCK)).any(is_in)
}

/// How many records of each kind can be read, in one walk by the shorter one: to that, a record with an id of 64 digits is one that lacks the space behind
/// its id, so only such lines are read by the longer one too.
fn count_records(bytes: &[u8]) -> Result<(usize, usize), Error> {
    let table = Table::new(IdKind::Sha256, bytes);
    let (mut short, mut long) = (0, 0);
    for item in all_items(IdKind::Sha1, bytes)? {
        match item {
            Ok(_) => short += 1,
            Err(damage) if damage.reason == Reason::NoSpace => {
                let read = table.items_from(damage.place, damage.line.unwrap_or_default())?.next();
                long += usize::from(matches!(read, Some(Ok(_))));
            }
            Err(_) => {}
        }
    }
    Ok((short, long))
}

pub fn other(kind: IdKind) -> IdKind {
    match kind {
        IdKind::Sha1 => IdKind::Sha256,
        IdKind::Sha256 => IdKind::Sha1,
    }
}

/// The option that forces a kind.
pub fn option(kind: IdKind) -> &'static str {
    match kind {
        IdKind::Sha1 => "--sha1",
        IdKind::Sha256 => "--sha256",
    }
}

fn passes_otherwise(input: &Input, kind: IdKind) -> Refusal {
    let words = format!(
        "{}: the file passes the check with ids of {} digits, and {} asks for {}. No answer: leave out {}.",
        input.name,
        other(kind).digits(),
        option(kind),
        kind.digits(),
        option(kind)
    );
    Refusal { words, file: Some(input.given.clone()), ..Refusal::default() }
}

fn both(input: &Input, short: usize, long: usize) -> Refusal {
    let words = format!(
        "{}: {} with ids of 40 digits can be read, and {} with 64: two tables were mixed. Do not send. --sha1 or --sha256 says which of them is \
         to be asked; no record of the other is found then.",
        input.name,
        count(short, "record"),
        long
    );
    Refusal { words, file: Some(input.given.clone()), ..Refusal::default() }
}

#[cfg(test)]
mod tests {
    use super::{count_records, may_have_long};
    use crate::items::all_items;
    use packed_refs::IdKind;

    /// The one walk counts what a walk by each kind does, whatever lines stand one behind the other.
    #[test]
    fn one_walk_counts_the_records_of_both_kinds() {
        let (short, long) = ("1".repeat(40), "2".repeat(64));
        let lines = [
            "# no header\n".to_string(),
            format!("{short} refs/a\n"),
            format!("{long} refs/a\r\n"),
            format!("^{short}\n"),
            format!("^{long}\n"),
            format!("{short}\n"),
            format!("{long} refs//a\n"),
            "\n".to_string(),
        ];
        let mut both = 0;
        for at in 0..lines.len().pow(4) {
            let file: String = (0..4).map(|nth| lines[at / lines.len().pow(nth) % lines.len()].as_str()).collect();
            let [short, long] = [IdKind::Sha1, IdKind::Sha256]
                .map(|kind| all_items(kind, file.as_bytes()).map(|items| items.filter(Result::is_ok).count()));
            let (Ok(short), Ok(long)) = (short, long) else { panic!("{file:?} can be walked") };
            assert_eq!(count_records(file.as_bytes()), Ok((short, long)), "{file:?}");
            assert!(long == 0 || may_have_long(file.as_bytes()), "{file:?}");
            both += usize::from(short > 0 && long > 0);
        }
        assert!(both > 500, "{both}");
    }

    /// A record is seen wherever it begins, and lines without one are passed over.
    #[test]
    fn a_long_id_is_seen_at_every_place() {
        let (short, long) = (format!("{} refs/a\n", "1".repeat(40)), format!("{} refs/a\n", "2".repeat(64)));
        assert!(may_have_long(long.as_bytes()));
        for before in 0..9000 {
            let file = format!("{}\n{long}", "x".repeat(before));
            assert!(may_have_long(file.as_bytes()), "behind {before} bytes");
        }
        for file in ["".into(), "\n".repeat(9000), short.repeat(300), "2".repeat(64), format!("{}x refs/a\n", "2".repeat(64)).repeat(300)] {
            assert!(!may_have_long(file.as_bytes()), "{file:?}");
        }
    }
}
