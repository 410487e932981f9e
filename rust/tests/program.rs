//! Every command of the program, and every exit status.
mod common;

use common::{id, record, Dir, Ran, HEADER, IN_DAMAGED_FILE};
use packed_refs::{Escaped, Reason};
use std::io::Write;
use std::process::{Command, Stdio};

const NIGHT: &str = concat!(env!("CARGO_MANIFEST_DIR"), "/../examples/night");
const DAMAGED: &str = concat!(env!("CARGO_MANIFEST_DIR"), "/../examples/damaged");
const EDITS: &str = concat!(env!("CARGO_MANIFEST_DIR"), "/../examples/edits");
const E2: &str = "refs/sent/ward4/o118/e2";
const E3: &str = "refs/sent/ward4/o118/e3";
const E4: &str = "refs/sent/ward4/o118/e4";

fn run(args: &[&str]) -> Ran {
    common::run(args, b"")
}

#[test]
fn usage() {
    let dir = Dir::new();
    let file = dir.file("edits", b"");
    for args in [
        &[][..],
        &["--sha256"],
        &["find", NIGHT, E3],
        &["check"],
        &["check", NIGHT, NIGHT],
        &["lookup", NIGHT],
        &["list"],
        &["list", NIGHT, "a", "b"],
        &["report"],
        &["loose", NIGHT, NIGHT],
        &["merge", NIGHT],
        &["merge", NIGHT, &file, "-o"],
        &["merge", NIGHT, &file, "-o", "a", "-o", "b"],
        &["merge", NIGHT, &file, &file],
        &["merge", "-", "-"],
        &["merge", NIGHT, &file, "-o", "-"],
        &["--unknown"],
    ] {
        let ran = run(args);
        assert_eq!((ran.status, ran.out.as_str()), (64, ""), "{args:?}: {ran:?}");
        assert!(ran.err.ends_with("packed-refs: try --help\n"), "{ran:?}");
    }
    let help = run(&["--help"]);
    assert_eq!((help.status, help.err.as_str()), (0, ""));
    for command in ["check", "lookup", "list", "report", "merge", "loose"] {
        assert!(help.out.contains(&format!("\n  {command} ")), "{command}");
    }
    assert_eq!(run(&["--sha256", "--version"]).out, concat!("packed-refs ", env!("CARGO_PKG_VERSION"), "\n"));
}

#[test]
fn check() {
    run(&["check", NIGHT]).is(0, "0 passed: 28 records\n", "");
    let words = "damaged, line 15: number 41: a record's id can't be read; the record starts at byte 891; it reads \
                 '00000000000000000000?00000000000003ed5f2 refs/sent/ward4/o118/e2'. Do not send. Copy the file, ";
    run(&["check", DAMAGED]).is(2, "", words);

    let dir = Dir::new();
    run(&["check", &dir.file("bare", HEADER.as_bytes())]).is(0, "0 passed: 0 records\n", "");
    run(&["check", &dir.file("header", b"# no header\n")]).is(2, "", "line 1: number 2: ");
    let (a, b) = (format!("{} refs/s/a\n", id('1')), format!("{} refs/s/b\r\n^{}\r\n", id('2'), id('3')));
    run(&["check", &dir.file("crlf", format!("{a}{b}").as_bytes())]).is(0, "0 passed: 2 records\n", "");
    run(&["check", &dir.file("mixed", format!("{b}{a}").as_bytes())]).is(2, "", "line 3: number 6: ");
    run(&["check", &dir.file("cut", &a.as_bytes()[..49])]).is(2, "", "number 43: ");
    let long = format!("{} refs/s/a\n", "f".repeat(64));
    run(&["--sha256", "check", &dir.file("long", long.as_bytes())]).is(0, "0 passed: 1 record\n", "");
    common::run(&["check", "-"], a.as_bytes()).is(0, "0 passed: 1 record\n", "");
}

#[test]
fn what_cannot_be_read_is_no_answer() {
    let dir = Dir::new();
    for command in ["check", "lookup", "list", "report", "loose"] {
        let with = |path: &str| if command == "lookup" { run(&[command, path, E3]) } else { run(&[command, path]) };
        with(&dir.path("missing")).is(2, "", "missing is not there");
        with(&dir.path("")).is(2, "", "can't be read: ");
        with(&dir.path("missing/x")).is(2, "", "is not there");
        dir.file("file", b"");
        with(&dir.path("file/x")).is(2, "", "can't be read: ");
    }
    // over the limit, told by the length alone: it is never read
    let large = std::fs::File::create(dir.path("large")).unwrap();
    large.set_len(1_073_741_825).unwrap();
    for command in ["check", "list", "report", "loose"] {
        let run = Command::new("sh")
            .args(["-c", "ulimit -v 400000; exec \"$0\" \"$@\"", common::PROGRAM, command, &dir.path("large")])
            .output()
            .unwrap();
        assert_eq!(run.status.code(), Some(2), "{run:?}");
        assert!(String::from_utf8_lossy(&run.stderr).contains("number 17: "), "{run:?}");
    }
    let edits = dir.file("edits", b"delete refs/s/a\n");
    run(&["merge", &dir.path("large"), &edits]).is(2, "", "number 17: ");
    run(&["merge", NIGHT, &dir.path("large")]).is(2, "", "number 17: ");
}

#[test]
fn lookup() {
    let charted = format!("0 charted {E3} 00000000000000000000000000000000003ed5f3 byte 956\n");
    let absent = format!("5 absent {E4}\n");
    run(&["lookup", NIGHT, E3]).is(0, &charted, "");
    run(&["lookup", NIGHT, E4]).is(1, &absent, "");
    run(&["lookup", NIGHT, "refs/sent//e4"]).is(2, "", "no answer for 'refs/sent//e4': number 3: ");
    run(&["lookup", NIGHT, ""]).is(2, "", "number 3: ");
    // what stands elsewhere is still charted, and that the file is damaged is told beside it; what can't be read is never absent
    run(&["lookup", DAMAGED, E3]).is(0, &charted, &format!("{IN_DAMAGED_FILE}{DAMAGED}, line 15: number 41: "));
    run(&["lookup", DAMAGED, E2]).is(2, "", "number 41: ");
    run(&["lookup", DAMAGED, E4]).is(2, "", "number 41: ");
    // of several the worst decides, in any order
    run(&["lookup", NIGHT, E3, E3]).is(0, &format!("{charted}{charted}"), "");
    run(&["lookup", NIGHT, E3, E4]).is(1, &format!("{charted}{absent}"), "");
    run(&["lookup", NIGHT, E4, E3]).is(1, &format!("{absent}{charted}"), "");
    run(&["lookup", NIGHT, "x", E4, E3]).is(2, &format!("{absent}{charted}"), "number 3: ");
    run(&["lookup", DAMAGED, E3, E4, E3]).is(2, &format!("{charted}{charted}"), "no answer for 'refs/sent/ward4/o118/e4': number 41: ");

    let dir = Dir::new();
    let tag = dir.file("tag", format!("{} refs/s/a\n^{}\n", id('1'), id('2')).as_bytes());
    run(&["lookup", &tag, "refs/s/a"]).is(0, &format!("0 charted refs/s/a {} byte 0 peeled {}\n", id('1'), id('2')), "");
    run(&["lookup", &dir.file("bare", HEADER.as_bytes()), E3]).is(1, &format!("5 absent {E3}\n"), "");
}

#[test]
fn list() {
    let all = run(&["list", NIGHT]);
    assert_eq!((all.status, all.out.lines().count(), all.err.as_str()), (0, 28, ""));
    let some = run(&["list", NIGHT, "refs/sent/ward4/o118"]);
    let expected = [1, 2, 3].map(|i| format!("refs/sent/ward4/o118/e{i} 00000000000000000000000000000000003ed5f{i}\n")).concat();
    some.is(0, &expected, "");
    run(&["list", NIGHT, "refs/x"]).is(0, "", "");
    // a damaged file: all that can be read, the rest on standard error, and the status says so
    let some = run(&["list", DAMAGED, "refs/sent/ward4/o118"]);
    some.is(2, &expected.lines().filter(|l| !l.contains("e2")).map(|l| format!("{l}\n")).collect::<String>(), "not listed: number 41: ");

    let dir = Dir::new();
    let (a, b) = (format!("{} refs/s/a\n", id('1')), format!("{} refs/s/b\n^{}\n", id('2'), id('3')));
    let (la, lb) = (format!("refs/s/a {}\n", id('1')), format!("refs/s/b {} {}\n", id('2'), id('3')));
    run(&["list", &dir.file("sorted", format!("{a}{b}").as_bytes())]).is(0, &format!("{la}{lb}"), "");
    run(&["list", &dir.file("unsorted", format!("{b}{a}").as_bytes()), "refs/s/a"]).is(2, &la, "number 6: ");
    run(&["list", &dir.file("header", format!("#\n{a}").as_bytes())]).is(2, &la, "number 2: ");
}

#[test]
fn report() {
    run(&["report", NIGHT]).is(0, "total: 28 records, 0 damaged, 0 out of order, 1911 bytes\n", "");
    let line =
        "41 damaged: line 15, byte 891, a record's id can't be read: 00000000000000000000?00000000000003ed5f2 refs/sent/ward4/o118/e2\n";
    let todo = |reason: Reason| format!("what to do about {}: {} {}\n", reason.number(), reason.row().sender, reason.row().person);
    let total = "total: 27 records, 1 damaged, 0 out of order, 1911 bytes\n";
    run(&["report", DAMAGED]).is(2, &format!("{line}{}{total}", todo(Reason::BadId)), "");

    // lines as an editor counts them, and all of each; a terminal is not steered
    let dir = Dir::new();
    let tag = format!("{} refs/s/b\n^{}\n", id('1'), id('2'));
    let bytes = [b"#\x1b[2J\r\n", tag.as_bytes(), b"\x1b]0;x\x07\xff\\\r\n", &tag.as_bytes()[..50], b"cut"].concat();
    let lines = "2 no header: line 1, byte 0: #\\x1b[2J\n\
                 41 damaged: line 4, byte 99, a record's id can't be read: \\x1b]0;x\\x07\\xff\\x5c\\x0d\n\
                 6 out of order: line 5, byte 109: refs/s/b\n\
                 41 damaged: line 6, byte 159, a record's id can't be read: cut\n";
    // what to do is said once for each number
    let todos = [Reason::NoHeader, Reason::Unsorted, Reason::BadId].map(todo).concat();
    let expected = format!("{lines}{todos}total: 2 records, 3 damaged, 1 out of order, 162 bytes\n");
    run(&["report", &dir.file("wild", &bytes)]).is(2, &expected, "");
    let long = run(&["report", &dir.file("long", &[b'x'; 10_000])]);
    assert!(long.out.contains("x (and 1808 bytes more)\n"), "{long:?}");
}

/// Each command says which part of a record is bad, of a name which rule it breaks, and what can be done.
#[test]
fn the_bad_part_is_told() {
    let dir = Dir::new();
    let (a, c) = (record('1', "refs/s/a"), record('3', "refs/s/c"));
    let edits = dir.file("edits", b"delete refs/s/a\n");
    let two = id('2');
    let lock = "a part of it ends with .lock";
    for (line, reason, more, in_report) in [
        (format!("{}? refs/s/b\n", &two[1..]), Reason::BadId, String::new(), String::new()),
        (format!("{two}refs/s/b\n"), Reason::NoSpace, String::new(), String::new()),
        (format!("{two} refs/s/b\rx\n"), Reason::BadLineEnd, String::new(), String::new()),
        (format!("{two} refs/s/b.lock\r\n"), Reason::BadRecordName, format!("; its name is 'refs/s/b.lock': {lock}"), format!(" ({lock})")),
        (format!("{two} \n"), Reason::BadRecordName, "; its name is '': it is empty".into(), " (it is empty)".into()),
        (format!("{two} refs/s/b\n^zz\n"), Reason::BadPeeled, String::new(), " (it is the line below this one)".into()),
    ] {
        let bytes = format!("{a}{line}{c}");
        let table = dir.file("table", bytes.as_bytes());
        let (number, row) = (reason.number(), reason.row());
        let text = Escaped(line.split('\n').next().unwrap().as_bytes()).to_string();
        let wrong = format!("number {number}: {}; the record starts at byte 50; it reads '{text}'{more}", row.meaning);
        let todo = format!(". {} {}\n", row.sender, row.person);
        run(&["check", &table]).is(2, "", &format!("table, line 2: {wrong}{todo}"));
        run(&["lookup", &table, "refs/s/b"]).is(2, "", &format!("table, line 2: no answer for 'refs/s/b': {wrong}{todo}"));
        run(&["merge", &table, &edits, "-o", &table]).is(2, "", &format!("table, line 2: {wrong}{todo}"));
        assert_eq!(dir.read("table"), bytes.as_bytes());

        // charted before the damage and behind it: the status is 0, and the damage is told once
        let charted = |digit, name: &str| format!("0 charted {name} {} byte {}\n", id(digit), bytes.find(name).unwrap() - 41);
        let (charted_a, charted_c) = (charted('1', "refs/s/a"), charted('3', "refs/s/c"));
        for (names, told) in [
            (&["refs/s/a"][..], charted_a.clone()),
            (&["refs/s/c"], charted_c.clone()),
            (&["refs/s/a", "refs/s/c"], format!("{charted_a}{charted_c}")),
        ] {
            let ran = run(&[&["lookup", &table][..], names].concat());
            ran.is(0, &told, &format!("{IN_DAMAGED_FILE}{table}, line 2: {wrong}\n"));
            assert_eq!(ran.err.lines().count(), 1, "{ran:?}");
        }

        let part = format!("{}{in_report}", row.meaning);
        let readable = format!("refs/s/a {}\nrefs/s/c {}\n", id('1'), id('3'));
        let not_listed = format!("table, line 2: not listed: number {number}: {part}; it starts at byte 50: {text}\n");
        run(&["list", &table]).is(2, &readable, &not_listed);
        let report = run(&["report", &table]);
        assert!(report.out.starts_with(&format!("{number} damaged: line 2, byte 50, {part}: {text}\n")), "{report:?}");
        assert!(report.out.contains(&format!("\nwhat to do about {number}: {} {}\n", row.sender, row.person)), "{report:?}");
    }
}

/// What begins with ^ where a record should stand is the rest of a record that is bad or missing, or was one itself: nothing is said that would have it
/// thrown away.
#[test]
fn a_line_that_begins_with_a_caret_may_have_been_a_record() {
    let dir = Dir::new();
    let (a, b, peeled) = (record('1', "refs/s/a"), record('2', "refs/s/b"), format!("^{}\n", id('3')));
    let rest = "it begins with ^: the ^ line of a record that is bad or missing, or a record that lost its first digit";
    let was_record = "it begins with ^ but holds a name: it was a record";
    let lost_digit = format!("^{} refs/s/c\n", &id('2')[1..]);
    for (before, line, more) in [
        // below a record, whose 45 comes first, and which is then no longer read with it
        (b.clone(), "^zz\n", rest),
        (b.clone(), lost_digit.as_str(), was_record),
        // a second one, and one at the file's front
        (format!("{a}{peeled}"), peeled.as_str(), rest),
        (format!("{a}{peeled}"), &lost_digit, was_record),
        (String::new(), &peeled, rest),
        (String::new(), &lost_digit, was_record),
    ] {
        let table = dir.file("table", format!("{before}{line}").as_bytes());
        let (at, text) = (before.len(), line.trim_end());
        let number = before.lines().count() + 1;
        let told = format!("41 damaged: line {number}, byte {at}, a record's id can't be read ({more}): {text}\n");
        let report = run(&["report", &table]);
        assert!(report.status == 2 && report.out.contains(&told), "{told}{report:?}");
        assert_eq!(report.out.starts_with("45 damaged: line 1, byte 0, "), before == b, "{report:?}");
        let told =
            format!("table, line {number}: not listed: number 41: a record's id can't be read ({more}); it starts at byte {at}: {text}\n");
        let listed = run(&["list", &table]);
        assert!(listed.status == 2 && listed.err.contains(&told), "{told}{listed:?}");
    }
}

#[test]
fn nothing_steers_a_terminal() {
    let dir = Dir::new();
    let wild = dir.file("wild\x1b[2J", b"\x1b[2J\n#\x07\n\x9b\n");
    for args in [
        &["check", &wild][..],
        &["lookup", &wild, "refs/\x1b/x"],
        &["lookup", &wild, "refs/s/\u{9b}x"],
        &["list", &wild],
        &["report", &wild],
        &["loose", &wild],
        &["merge", &wild, &wild],
        &["\x1b[2J"],
    ] {
        let ran = run(args);
        assert_ne!(ran.status, 0);
        for text in [&ran.out, &ran.err] {
            assert!(text.chars().all(|c| c == '\n' || !c.is_control()), "{args:?}: {ran:?}");
        }
    }
}

#[test]
fn loose() {
    let dir = Dir::new();
    run(&["loose", &dir.file("id", format!("{}\n", id('A')).as_bytes())]).is(0, &format!("0 id {}\n", id('A')), "");
    run(&["loose", &dir.file("ref", b"ref: refs/heads/main\n")]).is(0, "0 symbolic refs/heads/main\n", "");
    run(&["loose", &dir.file("empty", b"")]).is(2, "", "number 15: ");
    run(&["loose", &dir.file("target", b"ref: x\n")]).is(2, "", "number 16: ");
}

#[test]
fn merge() {
    let dir = Dir::new();
    let (a, c) = (format!("{} refs/s/a\r\n", id('A')), format!("{} refs/s/c\n^{}\n", id('2'), id('3')));
    let old = dir.file("old", format!("{a}{c}").as_bytes());
    let edits = dir.file(
        "edits",
        format!("# a comment\r\n\n  \t\ndelete refs/s/c\r\n\tupdate  refs/s/b {}\nupdate refs/s/d {} {}\n", id('B'), id('5'), id('6'))
            .as_bytes(),
    );
    let new = format!("{HEADER}{} refs/s/a\n{} refs/s/b\n{} refs/s/d\n^{}\n", id('A'), id('b'), id('5'), id('6'));
    let three = "packed-refs: the new file has 3 records\n";
    run(&["merge", &old, &edits]).is(0, &new, three);
    common::run(&["merge", "-", &edits], format!("{a}{c}").as_bytes()).is(0, &new, three);
    common::run(&["merge", &old, "-"], &dir.read("edits")).is(0, &new, three);
    // to a file: another one, one beside, itself
    run(&["merge", &old, &edits, "-o", &dir.path("new")]).is(0, "", three);
    assert_eq!(dir.read("new"), new.as_bytes());
    run(&["merge", "-o", &old, &old, &edits]).is(0, "", three);
    assert_eq!(dir.read("old"), new.as_bytes());
    assert!(!dir.has("old.lock") && !dir.has("new.lock"));
    // again: the updates are updates
    run(&["merge", &old, &edits, "-o", &old]).is(0, "", three);
    assert_eq!(dir.read("old"), new.as_bytes());
    run(&["check", &old]).is(0, "0 passed: 3 records\n", "");

    // nothing to do: nothing is written
    let none = dir.file("none", b"delete refs/s/x\n");
    run(&["merge", &old, &none]).is(1, "", "number 13: ");
    run(&["merge", &old, &none, "-o", &dir.path("other")]).is(1, "", "number 13: ");
    assert!(!dir.has("other") && !dir.has("other.lock"));
    // no record remains
    let last = dir.file("last", b"delete refs/s/a\ndelete refs/s/b\ndelete refs/s/d\n");
    run(&["merge", &old, &last]).is(0, "", "number 14: ");
    assert!(dir.has("old"));
    run(&["merge", &old, &last, "-o", &old]).is(0, "", "number 14: ");
    assert!(!dir.has("old") && !dir.has("old.lock"));

    // no old file
    let first = dir.file("first", format!("update refs/s/a {}\n", id('1')).as_bytes());
    let one = format!("{HEADER}{} refs/s/a\n", id('1'));
    run(&["merge", &old, &none, "-o", &old]).is(1, "", "number 13: ");
    run(&["merge", &old, &first, "-o", &old]).is(0, "", "old is not there, and neither is the new file: a table begins");
    assert_eq!(dir.read("old"), one.as_bytes());
    // a slip of the keyboard must not cost the records that are there
    run(&["merge", &dir.path("odl"), &first, "-o", &old]).is(2, "", "its records would be lost");
    assert_eq!(dir.read("old"), one.as_bytes());
    // the example of the README
    let merged = run(&["merge", NIGHT, EDITS]);
    assert_eq!((merged.status, merged.err.as_str()), (0, "packed-refs: the new file has 28 records\n"));
    common::run(&["check", "-"], merged.out.as_bytes()).is(0, "0 passed: 28 records\n", "");
}

#[test]
fn merges_that_are_refused_write_nothing() {
    let dir = Dir::new();
    let old = dir.file("old", format!("{} refs/s/a\n", id('1')).as_bytes());
    let many: String = (0..4097).map(|i| format!("delete refs/s/{i}\n")).collect();
    let long = format!("delete a/{}\n", "b".repeat(4095));
    for (edits, words) in [
        ("update refs/s/a\n", "line 1: number 7: "),
        ("\nupdate refs/s/a 11\n", "line 2: number 7: '11' is neither 40 hex digits nor 64"),
        (&format!("update refs/s/a {} {}\n", id('1'), id('g')), "line 1: number 7: "),
        ("delete refs/s/a refs/s/b\n", "line 1: number 7: "),
        ("remove refs/s/a\n", "line 1: number 7: "),
        ("delete refs/s/a\ndelete refs/s/b", "line 2: number 7: the line has no line end"),
        ("# only\ndelete refs//a\n", "line 2: number 8: "),
        (&long, "line 1: number 8: "),
        ("delete refs/s/a\rx\n", "line 1: number 8: "),
        (&many, "line 4097: number 9: "),
        ("delete refs/s/b\n#\ndelete refs/s/a\ndelete refs/s/b\n", "line 4: number 11: "),
    ] {
        let list = dir.file("edits", edits.as_bytes());
        run(&["merge", &old, &list]).is(2, "", words);
        run(&["merge", &old, &list, "-o", &old]).is(2, "", words);
        assert_eq!(dir.read("old"), format!("{} refs/s/a\n", id('1')).as_bytes());
        assert!(!dir.has("old.lock"));
    }
    let list = dir.file("edits", b"delete refs/s/a\n");
    for (bytes, words) in [("#\n", "line 1: number 2: "), ("x\n", "line 1: number 41: ")] {
        let bad = dir.file("bad", bytes.as_bytes());
        run(&["merge", &bad, &list, "-o", &bad]).is(2, "", words);
        assert_eq!(dir.read("bad"), bytes.as_bytes());
        assert!(!dir.has("bad.lock"));
    }
    let twice = dir.file("bad", format!("{0} refs/s/b\n{0} refs/s/b\n", id('1')).as_bytes());
    run(&["merge", &twice, &list]).is(2, "", "line 2: number 6: ");
}

#[test]
fn where_a_merge_writes() {
    use std::os::unix::fs::{symlink, PermissionsExt};
    let dir = Dir::new();
    let list = dir.file("edits", format!("update refs/s/a {}\n", id('1')).as_bytes());
    let new = format!("{HEADER}{} refs/s/a\n", id('1'));
    // someone else's lock: nothing is read or written
    let old = dir.file("old", HEADER.as_bytes());
    dir.file("old.lock", b"theirs");
    run(&["merge", &old, &list, "-o", &old]).is(2, "", "old.lock is there: another program is writing");
    assert_eq!((dir.read("old"), dir.read("old.lock")), (HEADER.as_bytes().to_vec(), b"theirs".to_vec()));
    std::fs::remove_file(dir.path("old.lock")).unwrap();
    // the rights stay
    std::fs::set_permissions(&old, PermissionsExt::from_mode(0o640)).unwrap();
    run(&["merge", &old, &list, "-o", &old]).is(0, "", "the new file has 1 record");
    assert_eq!(std::fs::metadata(&old).unwrap().permissions().mode() & 0o777, 0o640);
    // a link stays a link
    let link = dir.path("link");
    symlink("old", &link).unwrap();
    dir.file("old", HEADER.as_bytes());
    run(&["merge", &link, &list, "-o", &link]).is(0, "", "the new file has 1 record");
    assert_eq!(dir.read("old"), new.as_bytes());
    assert!(std::fs::symlink_metadata(&link).unwrap().is_symlink());
    // what is no file is not replaced
    for path in [&dir.path(""), "/dev/null", "..", "/"] {
        run(&["merge", &old, &list, "-o", path]).is(2, "", "is no regular file");
    }
    run(&["merge", &old, &list, "-o", &dir.path("no/where")]).is(2, "", "can't be written: ");
    // a bare name stands in the working directory
    let ran = Command::new(common::PROGRAM).args(["merge", "old", "edits", "-o", "here"]).current_dir(dir.path("")).status().unwrap();
    assert!(ran.success());
    assert_eq!(dir.read("here"), new.as_bytes());
}

#[test]
fn output_that_cannot_be_written_is_no_answer() {
    let full = || Stdio::from(std::fs::File::options().write(true).open("/dev/full").unwrap());
    for args in [&["check", NIGHT][..], &["lookup", NIGHT, E3], &["list", NIGHT], &["report", NIGHT], &["merge", NIGHT, EDITS], &["--help"]]
    {
        let ran = Command::new(common::PROGRAM).args(args).stdout(full()).output().unwrap();
        assert_eq!(ran.status.code(), Some(2), "{args:?}: {ran:?}");
        assert!(String::from_utf8_lossy(&ran.stderr).contains("standard output can't be written: "), "{ran:?}");
    }
    // a reader that has gone, as `head` does, is not worth words; messages that can't be written change nothing
    let mut ran = Command::new(common::PROGRAM)
        .args(["list", "-"])
        .stdin(Stdio::piped())
        .stdout(Stdio::piped())
        .stderr(Stdio::piped())
        .spawn()
        .unwrap();
    drop(ran.stdout.take());
    ran.stdin.take().unwrap().write_all(&std::fs::read(NIGHT).unwrap()).unwrap();
    let ran = ran.wait_with_output().unwrap();
    assert_eq!((ran.status.code(), ran.stderr.as_slice()), (Some(0), &b""[..]));
    let ran = Command::new(common::PROGRAM).args(["lookup", DAMAGED, E4]).stderr(full()).status().unwrap();
    assert_eq!(ran.code(), Some(2));
}
