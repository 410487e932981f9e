//! docs/NUMBERS.md, the C header and the crate's table of numbers say the same, and no advice makes a charted name absent.
use packed_refs::numbers::{Beside, Row, ANSWERS, REFUSALS};
use packed_refs::{IdKind, Table};
use std::collections::{BTreeMap, BTreeSet};
use std::path::{Path, PathBuf};

fn root() -> PathBuf {
    Path::new(env!("CARGO_MANIFEST_DIR")).join("..")
}

fn read(path: &str) -> String {
    std::fs::read_to_string(root().join(path)).unwrap_or_else(|error| panic!("{path}: {error}"))
}

/// All rows of the table, by number.
fn rows() -> Vec<Row> {
    let mut rows: Vec<Row> = ANSWERS.iter().copied().chain(REFUSALS.iter().map(|reason| reason.row())).collect();
    rows.sort_by_key(|row| row.number);
    rows
}

/// The rows of the page: the cells of each line of its table.
fn page() -> Vec<Vec<String>> {
    let page = read("docs/NUMBERS.md");
    let is_row = |line: &&str| line.strip_prefix("| ").is_some_and(|rest| rest.starts_with(|c: char| c.is_ascii_digit()));
    let cells = |line: &str| line.trim_matches('|').split(" | ").map(|cell| cell.trim().to_string()).collect();
    page.lines().filter(is_row).map(cells).collect()
}

#[test]
fn the_page_says_what_the_messages_say() {
    let (rows, page) = (rows(), page());
    assert_eq!(page.len(), rows.len(), "as many rows");
    for (row, cells) in rows.iter().zip(&page) {
        let beside = if REFUSALS.iter().any(|reason| reason.row() == *row) { row.beside.words() } else { "see below" };
        let example = example_in(&cells[1]).map_or(String::new(), |example| format!("{AS_IN}{example}`"));
        let meaning = format!("{}{example}", row.meaning);
        let wanted = [&row.number.to_string(), &meaning, beside, row.sender, row.person];
        assert_eq!(cells[..5], wanted, "the page's row should be:\n| {} | {}\n", wanted.join(" | "), cells[5..].join(" | "));
    }
}

/// What stands before an example line in a row of the page.
const AS_IN: &str = ", as in `";

fn example_in(meaning: &str) -> Option<&str> {
    meaning.split_once(AS_IN).map(|(_, rest)| rest.trim_end_matches('`'))
}

/// Whether an example of the page is bad at its front, with that number.
fn holds(number: u32, example: &str) {
    let lines = example.replace("\\r", "\r").replace("\\n", "\n");
    let error = Table::check(IdKind::Sha1, &lines).expect_err(example);
    assert_eq!((error.number(), error.place()), (number, Some(0)), "{example}");
}

/// The row of each bad record has an example line, and below the table stand more, ``- NUMBER: `LINES` what is wrong``.
#[test]
fn the_examples_of_bad_records_give_their_numbers() {
    let is_bad_record = |number: u32| REFUSALS.iter().any(|reason| reason.number() == number && reason.is_bad_record());
    for cells in page() {
        let number = cells[0].parse::<u32>().unwrap();
        let example = example_in(&cells[1]);
        assert_eq!(example.is_some(), is_bad_record(number), "the row of number {number}");
        example.into_iter().for_each(|example| holds(number, example));
    }
    for line in read("docs/NUMBERS.md").lines() {
        let Some((number, rest)) = line.strip_prefix("- ").and_then(|item| item.split_once(": `")) else { continue };
        holds(number.parse().expect(line), rest.split('`').next().expect(line));
    }
}

/// What the definitions of numbers give: for each `.._number` in the crates' specs, the numbers and the other such definitions in its clauses.
fn definitions() -> BTreeMap<String, BTreeSet<String>> {
    let mut gives: BTreeMap<String, BTreeSet<String>> = BTreeMap::new();
    for dir in std::fs::read_dir(root().join("crates")).unwrap() {
        let Ok(specs) = std::fs::read_dir(dir.unwrap().path().join("specs")) else { continue };
        for file in specs {
            let text = std::fs::read_to_string(file.unwrap().path()).unwrap();
            for line in text.lines() {
                let (Some(name), Some((_, given))) = (line.split(' ').next(), line.rsplit_once(" = ")) else { continue };
                let first = given.split(' ').next().unwrap_or_default();
                if name.ends_with("_number") && (first.ends_with("_number") || given.parse::<u32>().is_ok()) {
                    gives.entry(name.to_string()).or_default().insert(first.to_string());
                }
            }
        }
    }
    gives
}

/// Whether a definition gives a number, or hands on to one that does.
fn leads_to(gives: &BTreeMap<String, BTreeSet<String>>, name: &str, number: &str) -> bool {
    gives.get(name).is_some_and(|given| given.contains(number) || given.iter().any(|next| next != name && leads_to(gives, next, number)))
}

/// `[`name`](../crates/CRATE/specs/FILE.antt)` in the row's last cell: each leads to a definition, and one of them is the one that gives the number.
#[test]
fn each_number_leads_to_its_definition() {
    let gives = definitions();
    for cells in page() {
        let [number, .., links] = cells.as_slice() else { panic!("{cells:?}") };
        let mut is_given = false;
        for link in links.split(", ") {
            let parts = link.strip_prefix("[`").and_then(|rest| rest.strip_suffix(')')).and_then(|rest| rest.split_once("`](../"));
            let (name, file) = parts.unwrap_or_else(|| panic!("number {number}: no link: {link}"));
            assert!(read(file).lines().any(|line| line.contains(&format!(" pub {name} : "))), "number {number}: no {name} in {file}");
            is_given |= leads_to(&gives, name, number);
        }
        assert!(is_given, "number {number}: none of {links} gives it");
    }
}

/// A number that a definition gives and that has no row here would come out as one that nobody knows.
#[test]
fn every_number_that_is_defined_has_its_row() {
    let known: BTreeSet<u32> = rows().iter().map(|row| row.number).collect();
    let given: BTreeSet<u32> = definitions().values().flatten().filter_map(|given| given.parse().ok()).collect();
    assert_eq!(given, known);
}

#[test]
fn the_c_header_lists_the_same_numbers() {
    let header = read("include/packed_refs.h");
    let list = header.split("Its first field is the number:").nth(1).unwrap().split("Every other field").next().unwrap();
    // two columns of a number and its words
    let mut listed = BTreeSet::new();
    for line in list.lines() {
        let words: Vec<&str> = line.split("  ").map(str::trim).filter(|word| !word.is_empty()).collect();
        listed.extend(words.iter().filter_map(|word| word.trim_start_matches("* ").trim().parse::<u32>().ok()));
    }
    assert_eq!(listed, rows().iter().map(|row| row.number).collect());
}

/// Of each advice: if a tired person does exactly this, can a name that was charted become absent?
#[test]
fn no_advice_makes_a_charted_name_absent() {
    for row in rows() {
        let advice = row.person;
        for harmful in ["put back", "Delete", "split.", "restore the file"] {
            assert!(!advice.contains(harmful), "number {}: {advice}", row.number);
        }
        // last night's file is where a single line is taken from, if it is clear which, and if it is not another name's
        let lines_from =
            advice.matches("restore the line at that place").count() * advice.matches("file if exactly one line there").count();
        assert_eq!(advice.matches("last night's").count(), lines_from, "number {}: {advice}", row.number);
        let of_no_other = ", and that name stands nowhere else in this file, else from the chart or from another copy.";
        assert_eq!(advice.matches(of_no_other).count(), lines_from, "number {}: {advice}", row.number);
        assert_eq!(lines_from, usize::from([42, 43].contains(&row.number)), "number {}: {advice}", row.number);
        // an older file is named only with what it loses
        if advice.contains("older file") {
            assert!(advice.contains("sent again"), "number {}: {advice}", row.number);
        }
        // whoever is sent to a file with damage is told what must not get lost there, and keeps it as it was
        if matches!(row.beside, Beside::Record | Beside::Line | Beside::FirstLine) {
            assert!(advice.contains("sent again") && advice.contains("Copy the file"), "number {}: {advice}", row.number);
        }
        // a line may hold a second one, which must not get lost with it
        if (41..=44).contains(&row.number) {
            assert!(advice.contains("If two lines ran into one there, restore both."), "number {}: {advice}", row.number);
        }
        // a line that begins with ^ may have been a record
        for (number, words) in [
            (41, "If a name stands in it, it was a record: restore it as one."),
            (45, "If a name stands in the ^ line, a record became it or ran into it: restore that one as a line of its own."),
            (45, "If another copy has no ^ line there, or the record's id names no tag, a record stood there: restore that record."),
            (45, "Do not delete the ^ line: it may have been a record."),
        ] {
            assert!(row.number != number || advice.contains(words), "number {number}: {advice}");
        }
        let is_answer = ANSWERS.contains(&row);
        let holds_back = row.sender == "Do not send." || row.sender == "Hold back what the list names: nothing was written.";
        assert_eq!(holds_back, !is_answer, "number {}: {}", row.number, row.sender);
    }
    let header = REFUSALS.iter().map(|reason| reason.row()).find(|row| row.number == 2).unwrap();
    let least = "# pack-refs with: sorted ";
    assert!(header.person.contains(&format!("'{least}'")));
    let claims = packed_refs::header(format!("{least}\n")).unwrap();
    assert_eq!((claims.peeled, claims.sorted), (packed_refs::Peeled::Unspecified, true));
}
