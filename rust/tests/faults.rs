//! Each part of a record that can be bad, by its number, in every answer that tells it; with ids of both lengths.
use packed_refs::{ask, ask_many, merge, sys, Asked, Edits, Escaped, Glance, IdKind, Reason, Table};

const KINDS: [IdKind; 2] = [IdKind::Sha1, IdKind::Sha256];
const HEADER: &str = "# pack-refs with: sorted \n";

fn id(kind: IdKind, digit: char) -> String {
    digit.to_string().repeat(kind.digits())
}

fn record(kind: IdKind, name: &str) -> String {
    format!("{} {name}\n", id(kind, '1'))
}

/// What may stand in the place of a record of `refs/s/b`, and the number of the part that is bad: the first in the order of the numbers.
fn bad_lines(kind: IdKind) -> Vec<(String, u32)> {
    let two = id(kind, '2');
    let short = &two[1..];
    vec![
        (format!("{short} refs/s/b\n"), 41),
        (format!("{short}g refs/s/b\n"), 41),
        (format!(" {two} refs/s/b\n"), 41),
        ("\n".into(), 41),
        ("\r\n".into(), 41),
        (HEADER.into(), 41),
        // nothing behind the first id is looked at
        (format!("{short}g\trefs//b\r^zz\n"), 41),
        (format!("{two}\n"), 42),
        (format!("{two}\trefs/s/b\n"), 42),
        (format!("{two}2 refs/s/b\n"), 42),
        (format!("{two}refs//b\rx\n"), 42),
        (format!("{two} refs/s/b\rx\n"), 43),
        (format!("{two} refs/s/b\r\r\n"), 43),
        // the line's end comes before the name
        (format!("{two} refs//b\rx\n"), 43),
        (format!("{two} \rx\n"), 43),
        (format!("{two} \n"), 44),
        (format!("{two} \r\n"), 44),
        (format!("{two}  refs/s/b\n"), 44),
        (format!("{two} refs/s/b \n"), 44),
        (format!("{two} refs/s/b.lock\n"), 44),
        // two lines in one, and a ^ line that ran into its record
        (format!("{two} refs/s/b{two} refs/s/bb\n"), 44),
        (format!("{two} refs/s/b^{two}\n"), 44),
        // the name comes before the ^ line
        (format!("{two} refs//b\n^zz\n"), 44),
        (format!("{two} refs/s/b\n^\n"), 45),
        (format!("{two} refs/s/b\n^{short}\n"), 45),
        (format!("{two} refs/s/b\r\n^{short}g\r\n"), 45),
        (format!("{two} refs/s/b\n^{two}2\n"), 45),
        (format!("{two} refs/s/b\n^{two}\rx\n"), 45),
        (format!("{two} refs/s/b\n^{two} refs/s/bb\n"), 45),
    ]
}

/// The same for the end of a file that was cut.
fn cut_lines(kind: IdKind) -> Vec<(String, u32)> {
    let two = id(kind, '2');
    vec![
        ("2".into(), 41),
        (two[1..].into(), 41),
        (two.clone(), 42),
        (format!("{two} "), 43),
        (format!("{two} refs/s/b"), 43),
        (format!("{two} refs//"), 43),
        (format!("{two} refs/s/b\r"), 43),
        (format!("{two} refs/s/b\n^"), 45),
        (format!("{two} refs/s/b\n^{}", &two[1..]), 45),
        (format!("{two} refs/s/b\n^{two}"), 45),
        (format!("{two} refs/s/b\n^{two}\r"), 45),
    ]
}

/// A file with a bad line at a place.
struct Damaged {
    kind: IdKind,
    bytes: Vec<u8>,
    place: usize,
    number: u32,
    /// The line's number, and its text.
    line: u64,
    text: Vec<u8>,
}

/// Every bad line behind a header or none, behind records with and without a `^` line or none, before one or none.
fn files() -> Vec<Damaged> {
    let mut files = Vec::new();
    for kind in KINDS {
        let (a, c) = (record(kind, "refs/s/a"), record(kind, "refs/s/c"));
        let whole = bad_lines(kind).into_iter().flat_map(|bad| [("", bad.clone()), (&c[..], bad)]);
        let cut = cut_lines(kind).into_iter().map(|bad| ("", bad));
        for (behind, (line, number)) in whole.chain(cut) {
            let peeled = format!("{a}^{}\r\n", id(kind, '3'));
            for (before, at) in [
                (String::new(), 1),
                (HEADER.into(), 2),
                (a.clone(), 2),
                (format!("{HEADER}{a}"), 3),
                (peeled.clone(), 3),
                (format!("{HEADER}{peeled}"), 4),
            ] {
                if before.is_empty() && line.starts_with('#') {
                    continue; // there it is the header
                }
                let (bytes, place) = (format!("{before}{line}{behind}").into_bytes(), before.len());
                let text = line.split('\n').next().unwrap_or_default().as_bytes().to_vec();
                files.push(Damaged { kind, bytes, place, number, line: at, text });
            }
        }
    }
    files
}

#[test]
fn the_check_the_merge_and_ask_tell_the_part() {
    for Damaged { kind, bytes, place, number, line, text } in files() {
        let shown = String::from_utf8_lossy(&bytes);
        let missing = b"refs/s/z";
        let errors = [
            Table::check(kind, &bytes).unwrap_err(),
            merge(&bytes, &Edits::new(kind)).unwrap_err(),
            ask(kind, &bytes, missing).unwrap_err(),
            ask_many(kind, &bytes, &[missing]).remove(0).unwrap_err(),
        ];
        for error in errors {
            assert_eq!((error.number(), error.place(), error.line()), (number, Some(place), Some(line)), "{shown:?}");
            assert_eq!((error.text(), error.text_len()), (&text[..], text.len()), "{shown:?}");
            assert!(error.reason().is_bad_record());
            let words = format!("; the record starts at byte {place}, on line {line}; it reads '{}'. ", Escaped(&text));
            assert!(error.to_string().contains(&words), "{error}");
        }
        // where it is charted elsewhere, the number alone is told
        for name in ["refs/s/a", "refs/s/c"] {
            let said = sys::ask(kind.number(), &bytes, name.as_bytes());
            assert!(said.number != 0 || (said.fault, said.line, said.text_len) == (number, 0, 0), "{shown:?}");
        }
    }
}

#[test]
fn a_step_tells_the_part_and_goes_on_behind_the_line() {
    for Damaged { kind, bytes, place, number, line, text } in files() {
        let shown = String::from_utf8_lossy(&bytes);
        let end = bytes[place..].iter().position(|b| *b == b'\n').map_or(bytes.len(), |at| place + at + 1);
        let next_line = if bytes[..end].ends_with(b"\n") { 8 } else { 7 };
        for (said, line, next_line) in [
            (sys::step(kind.number(), &bytes, place), line, 0),
            (sys::walk(kind.number(), &bytes, place, 7), 7, next_line),
            (sys::step_prefix(kind.number(), &bytes, b"x", place), 0, 0),
        ] {
            assert_eq!((said.number, said.what, said.why, said.line, said.next_line), (0, 2, number, line, next_line), "{shown:?}");
            assert_eq!((said.start, said.next, said.text_len), (place, end, text.len()), "{shown:?}");
        }
        let damage = Table::new(kind, &bytes).items().unwrap().find_map(Result::err).expect("damage");
        assert_eq!((damage.reason.number(), damage.place, damage.line, damage.text), (number, place, Some(line), &text[..]), "{shown:?}");
        let words = format!("number {number}: {}; line {line}, it starts at byte {place}: ", damage.reason.row().meaning);
        assert_eq!(damage.to_string(), format!("{words}{}", Escaped(&text)));
        // a record and an end have none
        assert_eq!(sys::step(kind.number(), record(kind, "refs/s/a").as_bytes(), 0).why, 0);
        assert_eq!(sys::step(kind.number(), &bytes, bytes.len()).why, 0);
    }
}

/// Every item of a file, damaged or not: the line that the iteration stands on is one more than the line feeds before, and so is the line of every error.
#[test]
fn an_iteration_knows_the_true_lines() {
    let mut errors = 0;
    for Damaged { kind, bytes, .. } in files() {
        for bytes in [bytes.clone(), bytes.repeat(3), [&bytes[..], b"\n\r\n^\n", &bytes].concat()] {
            let true_line = |place: usize| 1 + bytes[..place].iter().filter(|b| **b == b'\n').count() as u64;
            let mut items = Table::new(kind, &bytes).items().unwrap();
            loop {
                let (place, line) = (items.place(), items.line());
                assert_eq!(line, Some(true_line(place)), "{:?}", String::from_utf8_lossy(&bytes));
                match items.next() {
                    None => break,
                    Some(Ok(record)) => assert_eq!(record.place, place),
                    Some(Err(damage)) => {
                        assert_eq!((damage.place, damage.line), (place, line));
                        assert_eq!(sys::step(kind.number(), &bytes, place).line, true_line(place));
                        errors += 1;
                    }
                }
            }
        }
    }
    assert!(errors > 1000, "{errors}");
}

/// A listing by prefix starts in the middle: its errors have a place in the whole file and a text, and no line. No checked table has one, so the step is
/// asked itself.
#[test]
fn a_listing_by_prefix_tells_no_line() {
    for Damaged { kind, bytes, place, number, text, .. } in files() {
        for prefix in [&b""[..], b"refs/s/", b"z"] {
            let said = sys::step_prefix(kind.number(), &bytes, prefix, place);
            assert_eq!((said.what, said.why, said.start, said.line, said.next_line), (2, number, place, 0, 0));
            assert_eq!(&bytes[said.start..said.start + said.text_len], text);
        }
    }
    let table = format!("{HEADER}{}", record(IdKind::Sha1, "refs/s/a"));
    let listed = Table::check(IdKind::Sha1, &table).unwrap().with_prefix("refs/s/").unwrap();
    assert!(!format!("{listed:?}").contains("line"), "{listed:?}");
}

/// Number 6 has its place alone; a walk there tells the line. No other place is an item's.
#[test]
fn a_name_out_of_order_has_its_place_alone() {
    for kind in KINDS {
        let (a, b) = (record(kind, "refs/s/a"), record(kind, "refs/s/b"));
        let peeled = format!("{b}^{}\n", id(kind, '3'));
        for (before, line) in [(b.clone(), 2), (format!("{HEADER}{b}"), 3), (peeled.clone(), 3), (format!("{HEADER}{peeled}"), 4)] {
            let bytes = format!("{before}{a}");
            let errors = [
                Table::check(kind, &bytes).unwrap_err(),
                merge(&bytes, &Edits::new(kind)).unwrap_err(),
                ask(kind, &bytes, "refs/s/z").unwrap_err(),
            ];
            for error in errors {
                assert_eq!((error.number(), error.place(), error.line(), error.text_len()), (6, Some(before.len()), None, 0));
            }
            let table = Table::new(kind, &bytes);
            assert_eq!(table.line_at(before.len()), Some(line));
            let starts: Vec<usize> = (0..bytes.len() + 2).filter(|place| table.line_at(*place).is_some()).collect();
            assert_eq!(starts, table.items().unwrap().map(|item| item.unwrap().place).collect::<Vec<_>>());
        }
    }
    // behind a first line that is no header, and that line itself
    let table = Table::new(IdKind::Sha1, b"# rubbish\nmore\n");
    assert_eq!([0, 1, 10, 14, 15].map(|place| table.line_at(place)), [Some(1), None, Some(2), None, None]);
    assert_eq!(Table::new(IdKind::Sha1, b"").line_at(0), None);
}

/// Whether it stands before the fault or behind it.
#[test]
fn what_is_charted_in_a_damaged_file_says_so() {
    for Damaged { kind, bytes, number, .. } in files() {
        let shown = String::from_utf8_lossy(&bytes);
        for name in ["refs/s/a", "refs/s/c"] {
            let line = record(kind, name);
            let stands = bytes.windows(line.len()).position(|part| part == line.as_bytes());
            match (ask(kind, &bytes, name), stands) {
                (Ok(Asked::ChartedInDamagedFile { record, fault }), Some(place)) => {
                    assert_eq!((record.name, record.place, fault.number()), (name.as_bytes(), place, number), "{shown:?}");
                }
                (Err(error), None) => assert_eq!(error.number(), number, "{shown:?}"),
                (told, _) => panic!("{shown:?}: {told:?}"),
            }
            assert_eq!(ask_many(kind, &bytes, &[name]), [ask(kind, &bytes, name)]);
        }
    }
}

#[test]
fn a_fault_is_what_the_check_gives() {
    for kind in KINDS {
        let (a, b, c) = (record(kind, "refs/s/a"), record(kind, "refs/s/b"), record(kind, "refs/s/c"));
        let bad = |number| bad_lines(kind).into_iter().find(|bad| bad.1 == number).unwrap().0;
        for (lines, number) in [
            (format!("{a}{b}{c}"), 0),
            (format!("{HEADER}{b}"), 0),
            // before the record and behind it; out of order, and twice: the first one counts, as in the check
            (format!("{}{b}", bad(44)), 44),
            (format!("{b}{}", bad(42)), 42),
            (format!("{}{b}{}", bad(43), bad(41)), 43),
            (format!("{b}{a}"), 6),
            (format!("{c}{b}"), 6),
            (format!("{b}{b}"), 6),
            (format!("{b}{a}{}", bad(45)), 6),
            (format!("{a}{}{b}{a}", bad(45)), 45),
        ] {
            let said = sys::ask(kind.number(), lines.as_bytes(), b"refs/s/b");
            assert_eq!((said.number, said.fault), (0, number), "{lines:?}");
            assert_eq!(number, sys::check(kind.number(), lines.as_bytes()).number, "{lines:?}");
            match ask(kind, &lines, "refs/s/b").unwrap() {
                Asked::Charted(_) => assert_eq!(number, 0),
                Asked::ChartedInDamagedFile { fault, .. } => assert_eq!(number, fault.number()),
                Asked::Absent => panic!("{lines:?}"),
            }
        }
        // beside every other number there is none
        for (lines, number) in [(a.clone(), 5), (format!("{a}{}", bad(41)), 41), (format!("{a}{a}"), 6), ("#\n".into(), 2)] {
            let said = sys::ask(kind.number(), lines.as_bytes(), b"refs/s/b");
            assert_eq!((said.number, said.fault), (number, 0), "{lines:?}");
        }
        assert_eq!(sys::ask(kind.number(), format!("{b}x").as_bytes(), b"refs").fault, 0);
        assert_eq!(sys::ask(0, b.as_bytes(), b"refs/s/b").fault, 0);
    }
}

/// A hit gives 0, 41 or 45 and its place, wherever the record stands; a miss 4 or 5, and no place.
#[test]
fn a_lookup_tells_a_bad_hit_from_a_miss() {
    let (mut hits, mut misses) = ([0, 0], 0);
    for Damaged { kind, bytes, place, number, .. } in files() {
        let body = packed_refs::header(&bytes).unwrap().body;
        let said = sys::lookup(kind.number(), &bytes[body..], b"refs/s/b");
        let glance = Table::new(kind, &bytes).glance("refs/s/b").unwrap();
        let shown = String::from_utf8_lossy(&bytes);
        match said.number {
            41 | 45 => {
                assert_eq!((said.number, said.place), (number, place - body), "{shown:?}");
                let Glance::Unreadable(error) = glance else { panic!("{shown:?}") };
                assert_eq!(
                    (error.number(), error.place_in_file(), error.line(), error.text_len()),
                    (number, Some(place), None, 0),
                    "{shown:?}"
                );
                hits[usize::from(number == 45)] += 1;
            }
            4 => {
                assert_eq!(said.place, 0, "{shown:?}");
                let Glance::Unreadable(error) = glance else { panic!("{shown:?}") };
                assert_eq!((error.reason(), error.place()), (Reason::Unsure, None), "{shown:?}");
                misses += 1;
            }
            5 => assert_eq!((said.place, glance), (0, Glance::NotFound), "{shown:?}"),
            other => panic!("{shown:?}: {other}"),
        }
    }
    assert!(hits[0] > 5 && hits[1] > 5 && misses > 5, "{hits:?}, {misses}");
}

/// A call with the wrong id kind looks like damage, from the first record on.
#[test]
fn ids_of_the_other_length_are_told_as_damage() {
    for (kind, other, number) in [(IdKind::Sha1, IdKind::Sha256, 42), (IdKind::Sha256, IdKind::Sha1, 41)] {
        for head in ["", HEADER] {
            let file = format!("{head}{}{}", record(other, "refs/s/a"), record(other, "refs/s/b"));
            assert_eq!(Table::check(other, &file).map(|table| table.len()), Ok(2));
            for error in [Table::check(kind, &file).map(|_| ()), ask(kind, &file, "refs/s/b").map(|_| ())].map(Result::unwrap_err) {
                assert_eq!((error.number(), error.place()), (number, Some(head.len())));
            }
        }
    }
}

#[test]
fn the_five_reasons_are_bad_records_and_no_other_is() {
    for reason in packed_refs::numbers::REFUSALS {
        assert_eq!(reason.is_bad_record(), (41..=45).contains(&reason.number()));
    }
    assert!(!Reason::Foreign(41).is_bad_record());
}
