//! Absent is never said of what was not read: closed descriptors, tables of zero bytes, files that change, tables that are too short.
mod common;

use common::{id, meanwhile, record, shell, Dir, Ran, HEADER};
use std::fs::File;
use std::io::Write;
use std::process::{Child, Command, Stdio};
use std::time::{Duration, Instant, SystemTime};

const NIGHT: &str = concat!(env!("CARGO_MANIFEST_DIR"), "/../examples/night");
const DAMAGED: &str = concat!(env!("CARGO_MANIFEST_DIR"), "/../examples/damaged");
const EDITS: &str = concat!(env!("CARGO_MANIFEST_DIR"), "/../examples/edits");
const E3: &str = "refs/sent/ward4/o118/e3";
const E4: &str = "refs/sent/ward4/o118/e4";

fn run(args: &[&str]) -> Ran {
    common::run(args, b"")
}

/// A standard input that is closed, or open for writing only, is no answer for any command, whatever the options.
#[test]
fn a_standard_input_that_cannot_be_read_is_no_answer() {
    let dir = Dir::new();
    let edits = dir.file("edits", b"delete refs/s/a\n");
    let new = dir.path("new");
    let file = dir.file("written", b"");
    for args in [
        &["lookup", "-", E3][..],
        &["check", "-"],
        &["list", "-"],
        &["report", "-"],
        &["loose", "-"],
        &["merge", "-", &edits],
        &["merge", "-", &edits, "-o", &new],
        &["merge", NIGHT, "-", "-o", &new],
        &["lookup", NIGHT, "--names", "-"],
        &["lookup", "/dev/stdin", E3],
        &["lookup", "-", E3, "--quiet"],
        &["lookup", "-", E3, "--json"],
    ] {
        for redirected in ["<&-", &format!("0>'{file}'"), "<&- >&-", "0>/dev/null"] {
            for option in [None, Some("--may-be-empty")] {
                if redirected.starts_with("0>") && args.contains(&"/dev/stdin") {
                    continue; // that name is opened anew, and then it can be read
                }
                if option.is_some() && args[0] == "loose" {
                    continue;
                }
                let args: Vec<&str> = args.iter().copied().chain(option).collect();
                let ran = shell(&format!("exec \"$@\" {redirected}"), &args);
                assert_eq!(ran.status, 2, "{args:?} {redirected}: {ran:?}");
                assert!(ran.err.contains("can't be read: ") || ran.err.contains("can't be written: "), "{args:?} {redirected}: {ran:?}");
                assert!(!ran.out.contains("absent") && !dir.has("new"), "{args:?} {redirected}: {ran:?}");
            }
        }
    }
    // one that nobody asks for may be closed
    shell("exec \"$@\" <&-", &["lookup", NIGHT, E4]).is(1, &format!("5 absent {E4}\n"), "");
    shell("exec \"$@\" <&- 2>&-", &["lookup", DAMAGED, E4]).is(2, "", "");
}

#[test]
fn an_output_that_is_closed_is_no_answer() {
    let dir = Dir::new();
    for args in [
        &["check", NIGHT][..],
        &["lookup", NIGHT, E3],
        &["lookup", NIGHT, E4],
        &["list", NIGHT],
        &["list", NIGHT, "-z"],
        &["list", NIGHT, "--json"],
        &["report", NIGHT],
        &["merge", NIGHT, EDITS],
        &["loose", &dir.file("loose", b"ref: refs/s/a\n")],
        &["--help"],
        &["--version"],
    ] {
        for redirected in [">&-", "1</dev/null"] {
            let ran = shell(&format!("exec \"$@\" {redirected}"), args);
            assert_eq!(ran.status, 2, "{args:?} {redirected}: {ran:?}");
            assert!(ran.err.contains("standard output can't be written: "), "{args:?} {redirected}: {ran:?}");
        }
    }
    // what is written nowhere needs no output
    shell("exec \"$@\" >&-", &["lookup", NIGHT, E4, "--quiet"]).is(1, "", "");
    let new = dir.path("new");
    shell("exec \"$@\" >&-", &["merge", NIGHT, EDITS, "-o", &new]).is(0, "", "the new file has 28 records");
    // a merge that is done says so, even where its line of JSON can't be written
    shell("exec \"$@\" >&-", &["merge", NIGHT, EDITS, "-o", &new, "--json"]).is(
        2,
        "",
        "the merge is done, but standard output can't be written",
    );
    // a file that is written never takes the place of a closed descriptor
    shell("exec \"$@\" <&- >&- 2>&-", &["merge", &new, EDITS, "-o", &new]).is(0, "", "");
    run(&["check", &new]).is(0, "0 passed: 28 records\n", "");
}

#[test]
fn a_table_of_zero_bytes_is_no_answer() {
    let dir = Dir::new();
    let empty = dir.file("empty", b"");
    let edits = dir.file("edits", format!("update refs/s/a {}\n", id('1')).as_bytes());
    let delete = dir.file("delete", b"delete refs/s/a\n");
    for args in [&["lookup", &empty, E3][..], &["check", &empty], &["list", &empty], &["report", &empty], &["merge", &empty, &edits]] {
        run(args).is(2, "", "empty has zero bytes. Do not send. ");
    }
    for args in [&["lookup", "-", E3][..], &["check", "-"], &["list", "-"], &["report", "-"], &["merge", "-", &edits]] {
        run(args).is(2, "", "standard input has zero bytes. Do not send. ");
    }
    // what a pipe from a program that failed would wipe
    let table = dir.file("table", record('1', "refs/s/b").as_bytes());
    let ran = shell(&format!("cat '{}' 2>/dev/null | \"$@\"", dir.path("missing")), &["merge", "-", &edits, "-o", &table]);
    ran.is(2, "", "has zero bytes");
    assert_eq!(dir.read("table"), record('1', "refs/s/b").as_bytes());
    assert!(!dir.has("table.lock"));
    run(&["merge", &empty, &edits, "-o", &empty]).is(2, "", "has zero bytes");

    // where a table without records is meant
    run(&["lookup", "--may-be-empty", &empty, E3]).is(1, &format!("5 absent {E3}\n"), "");
    run(&["check", &empty, "--may-be-empty"]).is(0, "0 passed: 0 records\n", "");
    run(&["list", "--may-be-empty", &empty]).is(0, "", "");
    run(&["report", "--may-be-empty", &empty]).is(0, "total: 0 records, 0 damaged, 0 out of order, 0 bytes\n", "");
    let one = format!("{HEADER}{}", record('1', "refs/s/a"));
    run(&["merge", "--may-be-empty", &empty, &edits]).is(0, &one, "the new file has 1 record\n");
    common::run(&["merge", "--may-be-empty", "-", &edits], b"").is(0, &one, "the new file has 1 record\n");
    run(&["merge", "--may-be-empty", &empty, &delete]).is(1, "", "number 13: ");
    // that speaks of a table alone
    assert_eq!(run(&["loose", "--may-be-empty", &empty]).status, 64);
    run(&["lookup", NIGHT, "--may-be-empty", "--names", &empty]).is(2, "", "there is no name in it: nothing was asked");
    // an edit list without edits has nothing to do, as ever
    run(&["merge", NIGHT, &empty]).is(1, "", "number 13: ");
}

#[test]
fn a_file_that_is_not_there_is_no_answer() {
    let dir = Dir::new();
    let (missing, new) = (dir.path("missing"), dir.path("new"));
    let edits = dir.file("edits", format!("update refs/s/a {}\n", id('1')).as_bytes());
    for option in [None, Some("--may-be-empty")] {
        for args in
            [&["lookup", &missing, E3][..], &["check", &missing], &["list", &missing], &["report", &missing], &["merge", &missing, &edits]]
        {
            let args: Vec<&str> = args.iter().copied().chain(option).collect();
            run(&args).is(2, "", "missing is not there");
        }
        // a table begins where neither file is there, option or not
        let args: Vec<&str> = ["merge", &missing, &edits, "-o", &new].into_iter().chain(option).collect();
        run(&args).is(0, "", "missing is not there, and neither is the new file: a table begins");
        assert_eq!(dir.read("new"), format!("{HEADER}{}", record('1', "refs/s/a")).as_bytes());
        run(&args).is(2, "", "missing is not there, but the file to be written is: its records would be lost");
        assert_eq!(dir.read("new"), format!("{HEADER}{}", record('1', "refs/s/a")).as_bytes());
        std::fs::remove_file(&new).unwrap();
    }
    assert!(!common::run(&["--help"], b"").out.contains("counts as empty"));
}

/// A line of shell that is run again and again until it is told to stop, or the test ends. It is never stopped within the line.
struct Repeated {
    shell: Child,
    stop: String,
}

impl Repeated {
    fn new(dir: &Dir, line: &str) -> Repeated {
        let stop = dir.path("stop");
        let line = format!("cd '{}' && until [ -e stop ]; do {line}; done", dir.path(""));
        Repeated { shell: Command::new("sh").args(["-c", &line]).spawn().unwrap(), stop }
    }
}

impl Drop for Repeated {
    fn drop(&mut self) {
        // Were it killed, what it started could go on and change the table behind it.
        std::fs::write(&self.stop, b"").unwrap();
        let _ = self.shell.wait();
        std::fs::remove_file(&self.stop).unwrap();
    }
}

/// While a table is rewritten in place again and again, a name that stands in every version of it is never absent.
#[test]
fn a_table_that_is_rewritten_in_place_is_never_absent() {
    let dir = Dir::new();
    // Lines of 359 bytes: none ends where a page of the file does, so that a copy that stands still is seen by its last line.
    let lines: String = (0..3_000).map(|i| record('1', &format!("refs/s/{i:0310}"))).collect();
    let table = dir.file("table", lines.as_bytes());
    dir.file("copy", lines.as_bytes());
    let last = format!("refs/s/{:0310}", 2_999);
    let copying = Repeated::new(&dir, "cp copy table");
    let begun = Instant::now();
    let mut told = [0; 3];
    while begun.elapsed() < Duration::from_secs(5) {
        let ran = run(&["lookup", &table, &last]);
        assert!([0, 2].contains(&ran.status), "{ran:?}");
        told[ran.status as usize] += 1;
        let ran = shell(&format!("exec \"$@\" <'{table}'"), &["lookup", "-", &last]);
        assert!([0, 2].contains(&ran.status), "{ran:?}");
    }
    drop(copying);
    println!("{} charted, {} no answer", told[0], told[2]);
    let ran = run(&["lookup", &table, &last]);
    assert_eq!(ran.status, 0, "{ran:?}");
}

/// A file that goes on changing while it is read is no answer, and one that stops is read anew.
#[test]
fn a_file_that_changes_while_it_is_read() {
    let dir = Dir::new();
    let table = dir.file("table", record('1', "refs/s/a").as_bytes());
    let other = dir.path("other");
    // a pause, so that the time of the change is another one too
    for line in [format!("sleep 0.02; touch '{table}'"), format!("cp '{table}' '{other}'; mv '{other}' '{table}'")] {
        let ran = meanwhile(&dir, "READ=0", &line, &["lookup", &table, "refs/s/b"]);
        ran.is(2, "", "table changes while it is read, each time anew. Do not send; ask again.");
    }
    let line = format!("printf '%040d refs/s/b\\n' 2 >>'{table}'");
    let once = meanwhile(&dir, "READ=1", &line, &["lookup", &table, "refs/s/b"]);
    once.is(0, &format!("0 charted refs/s/b {:040} byte 50\n", 2), "");
}

/// A table that was written to just now may still be in the making, and stand at the end of a line: absent is not said of it before it stands still. Nor is,
/// within a line, that it is damaged.
#[test]
fn a_table_in_the_making_is_waited_for() {
    let dir = Dir::new();
    let charted = |digit, name, byte| format!("0 charted {name} {} byte {byte}\n", id(digit));
    let both = format!("{}{}", record('1', "refs/s/a"), record('2', "refs/s/b"));
    for (command, written, told) in [
        (&["lookup", "table", "refs/s/b"][..], 50, charted('2', "refs/s/b", 50)),
        (&["lookup", "table", "refs/s/b"], 70, charted('2', "refs/s/b", 50)),
        (&["lookup", "table", "refs/s/a"], 70, charted('1', "refs/s/a", 0)),
        (&["check", "table"], 50, "0 passed: 2 records\n".to_string()),
    ] {
        let table = dir.file("table", &both.as_bytes()[..written]);
        let rest = dir.file("rest", &both.as_bytes()[written..]);
        // a time ahead of our clock is just now, too, however long it takes to get there
        File::options().append(true).open(&table).unwrap().set_modified(SystemTime::now() + Duration::from_secs(3600)).unwrap();
        let args: Vec<&str> = command.iter().map(|word| if *word == "table" { &table[..] } else { word }).collect();
        meanwhile(&dir, "WAIT=1", &format!("cat '{rest}' >>'{table}'"), &args).is(0, &told, "");
    }
}

#[test]
fn absent_of_a_table_that_has_its_records() {
    let dir = Dir::new();
    let charted = format!("0 charted {E3} 00000000000000000000000000000000003ed5f3 byte 956\n");
    for records in ["0", "27", "28"] {
        run(&["lookup", NIGHT, E4, "--records", records]).is(1, &format!("5 absent {E4}\n"), "");
    }
    for records in ["29", "18446744073709551615"] {
        let words = format!("no answer for '{E4}': the file has 28 records, and --records asks for {records}");
        run(&["lookup", NIGHT, E4, "--records", records]).is(2, "", &words);
        // charted is said as ever
        run(&["lookup", NIGHT, E3, "--records", records]).is(0, &charted, "");
        run(&["lookup", NIGHT, E4, E3, &format!("--records={records}")]).is(2, &charted, &words);
    }
    // a file cut at a line end passes the check; the count shows it
    let night = std::fs::read(NIGHT).unwrap();
    let cut = dir.file("cut", &night[..956]);
    run(&["check", &cut]).is(0, "0 passed: 14 records\n", "");
    run(&["lookup", &cut, E3]).is(1, &format!("5 absent {E3}\n"), "");
    run(&["lookup", &cut, E3, "--records", "28"]).is(2, "", "the file has 14 records");
    for wrong in ["", "-1", "+1", "x", "1 ", "18446744073709551616"] {
        let ran = run(&["lookup", NIGHT, E4, "--records", wrong]);
        assert_eq!(ran.status, 64, "{ran:?}");
    }
    // the people who decide are told what the check can't see
    for help in [run(&["--help"]), run(&["lookup", "--help"]), run(&["check", "--help"])] {
        for unseen in ["cut at a line end", "taken out", "older file", "letter of a name", "ran into the first record", "loose references"]
        {
            assert!(help.out.contains(unseen), "{unseen}: {help:?}");
        }
    }
}

/// One line more says what was not looked at.
#[test]
fn what_was_not_looked_at_is_said() {
    let dir = Dir::new();
    let short = "ward4/o118/e3";
    let said = format!("packed-refs: '{short}' is absent as it stands; 'refs/{short}' was not looked up\n");
    run(&["lookup", NIGHT, short]).is(1, &format!("5 absent {short}\n"), &said);
    run(&["lookup", NIGHT, short, "--quiet"]).is(1, "", "");
    run(&["lookup", NIGHT, E4]).is(1, &format!("5 absent {E4}\n"), "");

    let table = dir.file("packed-refs", record('1', "refs/heads/a").as_bytes());
    let absent = "5 absent refs/heads/b\n";
    run(&["lookup", &table, "refs/heads/b"]).is(1, absent, "");
    std::fs::create_dir(dir.path("refs")).unwrap();
    let said = format!("the loose references below {} were not looked at", dir.path("refs"));
    run(&["lookup", &table, "refs/heads/b"]).is(1, absent, &said);
    run(&["lookup", &table, "refs/heads/a"]).is(0, &format!("0 charted refs/heads/a {} byte 0\n", id('1')), "");
    run(&["check", &table]).is(0, "0 passed: 1 record\n", &said);
    run(&["list", &table]).is(0, &format!("refs/heads/a {}\n", id('1')), &said);
    run(&["list", &table, "--quiet"]).is(0, &format!("refs/heads/a {}\n", id('1')), "");
    // by a link too, and not by another name
    std::os::unix::fs::symlink(&table, dir.path("link")).unwrap();
    run(&["lookup", &dir.path("link"), "refs/heads/b"]).is(1, absent, &said);
    let other = dir.file("other", record('1', "refs/heads/a").as_bytes());
    run(&["lookup", &other, "refs/heads/b"]).is(1, absent, "");
    common::run(&["lookup", "-", "refs/heads/b"], record('1', "refs/heads/a").as_bytes()).is(1, absent, "");
}

/// A reader that goes early is told nothing, and the status is the file's.
#[test]
fn a_closed_pipe_behind_a_listing() {
    for (file, status) in [(NIGHT, 0), (DAMAGED, 2)] {
        for option in [None, Some("-z"), Some("--json")] {
            let mut program = Command::new(common::PROGRAM);
            program.args(["list", "-"]).args(option).stdin(Stdio::piped()).stdout(Stdio::piped()).stderr(Stdio::piped());
            let mut program = program.spawn().unwrap();
            drop(program.stdout.take());
            program.stdin.take().unwrap().write_all(&std::fs::read(file).unwrap()).unwrap();
            let ran: Ran = program.wait_with_output().unwrap().into();
            ran.is(status, "", "");
        }
    }
}
