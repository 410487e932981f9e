//! A night that goes wrong: no memory, signals, locks, other users, many names, the wrong kind of ids, names that Git can't keep.
mod common;

use common::{id, record, shell, Dir, Ran, HEADER, IN_DAMAGED_FILE};
use std::io::Write;
use std::os::unix::fs::{chown, MetadataExt, PermissionsExt};
use std::process::{Command, Stdio};
use std::time::{Duration, Instant};

const NIGHT: &str = concat!(env!("CARGO_MANIFEST_DIR"), "/../examples/night");
const DAMAGED: &str = concat!(env!("CARGO_MANIFEST_DIR"), "/../examples/damaged");

fn run(args: &[&str]) -> Ran {
    common::run(args, b"")
}

fn long_id(digit: char) -> String {
    digit.to_string().repeat(64)
}

fn long_record(digit: char, name: &str) -> String {
    format!("{} {name}\n", long_id(digit))
}

fn update(digit: char, name: &str) -> String {
    format!("update {name} {}\n", id(digit))
}

/// Whatever the limit on memory, the answer is the right one or none, and no lock is left.
#[test]
fn want_of_memory_is_no_answer() {
    let dir = Dir::new();
    let lines: String = (0..40_000).map(|i| record('1', &format!("refs/s/{i:07}"))).collect();
    let table = dir.file("table", lines.as_bytes());
    let damaged = dir.file("damaged", format!("rubbish\n{lines}").as_bytes());
    let names = dir.file("names", (0..40_000).map(|i| format!("refs/s/{i:07}\n")).collect::<String>().as_bytes());
    let edits = dir.file("edits", (0..4_000).map(|i| update('2', &format!("refs/t/{i:07}"))).collect::<String>().as_bytes());
    let new = dir.path("new");
    let mut refused = 0;
    for (args, right) in [
        (&["check", &table][..], 0),
        (&["lookup", &table, "refs/s/x"], 1),
        (&["lookup", &table, "--names", &names], 0),
        (&["lookup", &damaged, "--names", &names], 0),
        (&["list", &table], 0),
        (&["list", &table, "--json"], 0),
        (&["merge", &table, &edits, "-o", &new], 0),
    ] {
        // with the first of these not even the loader gets on
        for kib in (3_000..18_000).step_by(1_000) {
            dir.file("new", lines.as_bytes());
            let ran = shell(&format!("ulimit -v {kib}; exec \"$@\" >/dev/null"), args);
            if ran.status == 127 && ran.err.contains("error while loading shared libraries") {
                continue;
            }
            assert!(ran.status == right || ran.status == 2, "{args:?}, {kib} KiB: {}, {}", ran.status, ran.err);
            refused += usize::from(ran.status == 2);
            assert!(!dir.has("new.lock"), "{args:?}, {kib} KiB: the lock was left");
            if ran.status == 2 {
                assert_eq!(dir.read("new"), lines.as_bytes());
            }
        }
        assert_eq!(shell("exec \"$@\" >/dev/null", args).status, right);
    }
    assert!(refused > 20, "{refused}");
}

/// A merge that holds its lock and waits for the old file, by a pipe that nobody writes to.
struct Waiting {
    dir: Dir,
    merge: std::process::Child,
}

impl Waiting {
    fn new(ignored: &str) -> Waiting {
        let dir = Dir::new();
        let table = dir.file("table", record('1', "refs/s/a").as_bytes());
        let edits = dir.file("edits", update('2', "refs/s/b").as_bytes());
        let line = format!("{ignored} exec \"$0\" merge - \"$1\" -o \"$2\"");
        let merge =
            Command::new("bash").args(["-c", &line, common::PROGRAM, &edits, &table]).stdin(Stdio::piped()).stderr(Stdio::piped()).spawn();
        let waiting = Waiting { dir, merge: merge.unwrap() };
        let begun = Instant::now();
        while !waiting.dir.has("table.lock") {
            assert!(begun.elapsed() < Duration::from_secs(20), "no lock is taken");
            std::thread::sleep(Duration::from_millis(5));
        }
        // it is taken with signals held: let it get behind that
        std::thread::sleep(Duration::from_millis(100));
        waiting
    }

    fn signal(&self, name: &str) {
        let sent = Command::new("kill").args([&format!("-{name}"), &self.merge.id().to_string()]).status();
        assert!(sent.unwrap().success());
    }
}

#[test]
fn a_signal_takes_the_lock_away() {
    for (name, number) in [("INT", 2), ("TERM", 15), ("HUP", 1), ("QUIT", 3)] {
        let waiting = Waiting::new("ulimit -c 0;");
        waiting.signal(name);
        let ran: Ran = waiting.merge.wait_with_output().unwrap().into();
        assert_eq!(ran.status, -number, "{name}: {ran:?}");
        assert!(!waiting.dir.has("table.lock"), "{name}: the lock was left");
        assert_eq!(waiting.dir.read("table"), record('1', "refs/s/a").as_bytes());
    }
    // what was ignored stays ignored, as nohup wants it
    let mut waiting = Waiting::new("trap '' HUP;");
    waiting.signal("HUP");
    std::thread::sleep(Duration::from_millis(100));
    waiting.merge.stdin.take().unwrap().write_all(record('1', "refs/s/a").as_bytes()).unwrap();
    let ran: Ran = waiting.merge.wait_with_output().unwrap().into();
    ran.is(0, "", "the new file has 2 records");
    assert!(!waiting.dir.has("table.lock"));
}

#[test]
fn a_limit_on_the_size_of_a_file_takes_the_lock_away() {
    let dir = Dir::new();
    let table = dir.file("table", record('1', "refs/s/a").as_bytes());
    let edits = dir.file("edits", (0..4_000).map(|i| update('2', &format!("refs/s/{i:07}"))).collect::<String>().as_bytes());
    let ran = shell("ulimit -c 0 -f 100; exec \"$@\"", &["merge", &table, &edits, "-o", &table]);
    ran.is(2, "", "can't be written, and is as it was: File too large");
    assert!(!dir.has("table.lock"));
    assert_eq!(dir.read("table"), record('1', "refs/s/a").as_bytes());
}

#[test]
fn a_lock_is_waited_for() {
    let dir = Dir::new();
    let table = dir.file("table", record('1', "refs/s/a").as_bytes());
    let edits = dir.file("edits", update('2', "refs/s/b").as_bytes());
    // given back in time: when it is waited for the third time
    let lock = dir.file("table.lock", b"theirs");
    let ran = common::meanwhile(&dir, "WAIT=3", &format!("rm '{lock}'"), &["merge", &table, &edits, "-o", &table]);
    ran.is(0, "", "the new file has 2 records");
    // never given back
    dir.file("table.lock", b"theirs");
    let before = dir.read("table");
    let begun = Instant::now();
    run(&["merge", &table, &edits, "-o", &table]).is(2, "", "table.lock is there: another program is writing");
    assert!(begun.elapsed() >= Duration::from_secs(1));
    assert_eq!((dir.read("table"), dir.read("table.lock")), (before, b"theirs".to_vec()));
}

/// Merges by many at once: nobody's edit is lost, and nobody needs more than to try again.
#[test]
fn merges_at_once_lose_nothing() {
    let dir = Dir::new();
    let table = dir.file("table", record('1', "refs/s/a").as_bytes());
    let line = "for i in 1 2 3 4 5 6 7 8; do (printf 'update refs/s/%s %040d\\n' m$i $i | until \"$@\" 2>/dev/null; do sleep 0.1; done) & done; wait";
    // each has its edits in a file of its own, so that it can try again
    let line = line.replace(
        "printf 'update refs/s/%s %040d\\n' m$i $i | ",
        &format!("printf 'update refs/s/%s %040d\\n' m$i $i >'{0}'$i; e='{0}'$i; ", dir.path("e")),
    );
    let line = line.replace("\"$@\"", &format!("\"$1\" merge '{table}' \"$e\" -o '{table}'"));
    assert_eq!(shell(&line, &[]).status, 0);
    run(&["check", &table]).is(0, "0 passed: 9 records\n", "");
}

/// A merge by another user: group and mode are kept or it is refused; an owner that can't be kept is said. Only root can try it.
#[test]
fn a_merge_by_another_user() {
    let dir = Dir::new();
    if std::fs::metadata(dir.path("")).unwrap().uid() != 0 {
        println!("not tried: only root can be another user");
        return;
    }
    if Command::new("setpriv").arg("--version").output().is_err() {
        println!("not tried: setpriv is not there");
        return;
    }
    const OWNER: u32 = 54_001;
    const OTHER: u32 = 54_002;
    const GROUP: u32 = 54_003;
    let program = dir.path("program");
    std::fs::copy(common::PROGRAM, &program).unwrap();
    std::fs::set_permissions(dir.path(""), PermissionsExt::from_mode(0o777)).unwrap();
    let edits = dir.file("edits", update('2', "refs/s/b").as_bytes());
    let old = dir.file("old", record('1', "refs/s/a").as_bytes());
    let table = |mode: u32| {
        let table = dir.file("table", record('1', "refs/s/a").as_bytes());
        chown(&table, Some(OWNER), Some(GROUP)).unwrap();
        std::fs::set_permissions(&table, PermissionsExt::from_mode(mode)).unwrap();
        table
    };
    let merge = |groups: &str, table: &str, option: &str| -> Ran {
        let ids = [format!("--reuid={OTHER}"), format!("--regid={OTHER}")];
        let mut command = Command::new("setpriv");
        command.args(ids).args(groups.split(' ')).args([&program, "merge", &old, &edits, "-o", table]);
        command.args(Some(option).filter(|option| !option.is_empty())).output().expect("setpriv").into()
    };
    let rights = |table: &str| {
        let about = std::fs::metadata(table).unwrap();
        (about.uid(), about.gid(), about.mode() & 0o7777)
    };
    let member = format!("--groups={GROUP}");
    // of the same group: its readers go on reading
    for mode in [0o640, 0o660, 0o644] {
        let table = table(mode);
        merge(&member, &table, "").is(0, "", &format!("its owner is {OTHER} and was {OWNER}"));
        assert_eq!(rights(&table), (OTHER, GROUP, mode));
    }
    // of another group: the group's readers would be shut out
    for (mode, option) in [(0o640, ""), (0o644, ""), (0o640, "--allow-other-rights")] {
        let table = table(mode);
        let ran = merge("--clear-groups", &table, option);
        if option.is_empty() {
            ran.is(2, "", &format!("its group is {OTHER} and was {GROUP}"));
            assert!(ran.err.contains("--allow-other-rights"), "{ran:?}");
            assert_eq!(rights(&table), (OWNER, GROUP, mode));
            assert_eq!(std::fs::read(&table).unwrap(), record('1', "refs/s/a").as_bytes());
        } else {
            ran.is(0, "", &format!("its group is {OTHER} and was {GROUP}"));
            assert_eq!(rights(&table), (OTHER, OTHER, mode));
        }
        assert!(!dir.has("table.lock"));
    }
    // only the owner could read it: the owner would be shut out
    let owned = table(0o600);
    merge(&member, &owned, "").is(2, "", "its mode lets no one else read it");
    assert_eq!(rights(&owned), (OWNER, GROUP, 0o600));
    merge(&member, &owned, "--allow-other-rights").is(0, "", "its mode lets no one else read it");
    // root keeps all
    let kept = table(0o2640);
    run(&["merge", &old, &edits, "-o", &kept]).is(0, "", "packed-refs: the new file has 2 records\n");
    assert_eq!(rights(&kept), (OWNER, GROUP, 0o2640));
}

/// Many names cost little more than one in a damaged file: two thousand passes would take longer than the processor time that is left here.
#[test]
fn many_names_are_asked_of_a_damaged_file_at_once() {
    let dir = Dir::new();
    let lines: String = (0..100_000).map(|i| record('1', &format!("refs/s/{i:07}"))).collect();
    let damaged = dir.file("damaged", format!("{lines}rubbish\n").as_bytes());
    let names = dir.file("names", (0..4_000).map(|i| format!("refs/s/{:07}\n", 98_000 + i)).collect::<String>().as_bytes());
    let ran = shell("ulimit -c 0 -t 6; exec \"$@\"", &["lookup", &damaged, "--names", &names]);
    // that what is charted stands in a damaged file is said once, and not for each name
    assert_eq!((ran.status, ran.out.lines().count(), ran.err.lines().count()), (2, 2_000, 2_001));
    assert!(ran.out.lines().all(|line| line.starts_with("0 charted ")));
    assert!(ran.err.starts_with(IN_DAMAGED_FILE));
    assert!(ran.err.lines().skip(1).all(|line| line.contains(", line 100001: no answer for 'refs/s/")));
}

/// Of a bad line that is long it is found out once what is wrong, and not for each name.
#[test]
fn a_long_bad_line_is_looked_at_once() {
    let dir = Dir::new();
    let long = dir.file("long", record('1', &format!("refs/{}.lock", "s".repeat(4_000_000))).as_bytes());
    let names = dir.file("names", (0..1_000).map(|i| format!("refs/s/{i:07}\n")).collect::<String>().as_bytes());
    let ran = shell("ulimit -c 0 -t 6; exec \"$@\"", &["lookup", &long, "--names", &names]);
    assert_eq!((ran.status, ran.out.as_str(), ran.err.lines().count()), (2, "", 1_000));
    let is_told = |line: &str| line.contains(", line 1: no answer for 'refs/s/") && line.contains(": a part of it ends with .lock. ");
    assert!(ran.err.lines().all(is_told));
}

/// The records say how long their ids are.
#[test]
fn the_kind_is_that_of_the_records() {
    let dir = Dir::new();
    let name = "refs/s/a";
    let long = dir.file("long", format!("{HEADER}{}", long_record('1', name)).as_bytes());
    run(&["check", &long]).is(0, "0 passed: 1 record\n", "");
    run(&["lookup", &long, name]).is(0, &format!("0 charted {name} {} byte 46\n", long_id('1')), "");
    run(&["lookup", &long, "refs/s/b"]).is(1, "5 absent refs/s/b\n", "");
    run(&["list", &long]).is(0, &format!("{name} {}\n", long_id('1')), "");
    run(&["report", &long]).is(0, "total: 1 record, 0 damaged, 0 out of order, 120 bytes\n", "");
    // damaged elsewhere it has that kind too
    let hurt = dir.file("hurt", format!("{HEADER}{}{}", long_record('?', "refs/a/a"), long_record('1', name)).as_bytes());
    run(&["lookup", &hurt, name]).is(0, &format!("0 charted {name} {} byte 120\n", long_id('1')), IN_DAMAGED_FILE);
    run(&["lookup", &hurt, "refs/a/a"]).is(2, "", "line 2: no answer for 'refs/a/a': number 41: ");
    let report = run(&["report", &hurt]);
    let line = format!("41 damaged: line 2, byte 46, a record's id can't be read: {} refs/a/a\n", long_id('?'));
    assert!(report.status == 2 && report.out.starts_with(&line), "{report:?}");
    assert!(report.out.ends_with("\ntotal: 1 record, 1 damaged, 0 out of order, 194 bytes\n"), "{report:?}");
    // behind a line that is no header too
    let headless = dir.file("headless", format!("#\n{}", long_record('1', name)).as_bytes());
    run(&["list", &headless]).is(2, &format!("{name} {}\n", long_id('1')), "number 2: ");

    // forced against what it is, the message says just that
    for (option, digits, file) in [("--sha1", 64, long.as_str()), ("--sha256", 40, NIGHT)] {
        let words = format!("the file passes the check with ids of {digits} digits");
        for args in [&["check", file][..], &["lookup", file, name], &["list", file], &["report", file]] {
            let args: Vec<&str> = args.iter().copied().chain([option]).collect();
            let ran = run(&args);
            ran.is(2, "", &words);
            assert!(!ran.err.contains("number 4") && !ran.err.contains("restore"), "{ran:?}");
        }
    }
    run(&["--sha256", "check", &long]).is(0, "0 passed: 1 record\n", "");
    run(&["--sha1", "check", NIGHT]).is(0, "0 passed: 28 records\n", "");
    run(&["--sha1", "check", DAMAGED]).is(2, "", "number 41: ");

    // good records of both kinds, and none at all
    let mixed = dir.file("mixed", format!("{}{}", record('1', "refs/s/a"), long_record('1', "refs/s/b")).as_bytes());
    for args in [&["check", &mixed][..], &["lookup", &mixed, name], &["list", &mixed], &["report", &mixed]] {
        run(args).is(2, "", "1 record with ids of 40 digits can be read, and 1 with 64: two tables were mixed. Do not send.");
    }
    run(&["lookup", &mixed, name, "--sha1"]).is(0, &format!("0 charted {name} {} byte 0\n", id('1')), IN_DAMAGED_FILE);
    run(&["lookup", &mixed, "refs/s/b", "--sha1"]).is(2, "", "line 2: no answer for 'refs/s/b': number 42: ");
    let none = dir.file("none", b"rubbish\n\n");
    for args in [&["check", &none][..], &["lookup", &none, name], &["list", &none]] {
        run(args).is(2, "", "line 1: ");
    }
    assert_eq!(run(&["report", &none]).status, 2);
    // a table without records has no kind, and needs none
    let bare = dir.file("bare", HEADER.as_bytes());
    for option in ["--sha1", "--sha256", "--quiet"] {
        assert_eq!(run(&["lookup", &bare, name, option]).status, 1);
    }
}

#[test]
fn the_kind_of_edits_and_of_loose_content() {
    let dir = Dir::new();
    let long = dir.file("long", long_record('1', "refs/s/a").as_bytes());
    let short_edit = dir.file("short-edit", update('2', "refs/s/b").as_bytes());
    let long_edit = dir.file("long-edit", format!("update refs/s/b {} {}\n", long_id('2'), long_id('3')).as_bytes());
    let both = dir.file("both", format!("{}update refs/s/c {}\n", update('2', "refs/s/b"), long_id('2')).as_bytes());
    let delete = dir.file("delete", b"delete refs/s/a\n");
    let merged = format!("{HEADER}{}{}^{}\n", long_record('1', "refs/s/a"), long_record('2', "refs/s/b"), long_id('3'));
    run(&["merge", &long, &long_edit]).is(0, &merged, "the new file has 2 records");
    run(&["merge", &long, &short_edit]).is(2, "", "short-edit, line 1: number 7: an id has not 64 digits, as the old file's have. ");
    run(&["merge", NIGHT, &long_edit]).is(2, "", "long-edit, line 1: number 7: an id has not 40 digits, as the old file's have. ");
    run(&["merge", NIGHT, &both]).is(2, "", "both, line 2: number 7: an id has 40 digits and another one 64. ");
    run(&["merge", &long, &delete]).is(0, "", "number 14: ");
    // where there are no records yet the edits say it
    let first = format!("{HEADER}{}^{}\n", long_record('2', "refs/s/b"), long_id('3'));
    let new = dir.path("new");
    run(&["merge", &new, &long_edit, "-o", &new]).is(0, "", "a table begins");
    assert_eq!(dir.read("new"), first.as_bytes());
    run(&["merge", &dir.file("bare", HEADER.as_bytes()), &long_edit]).is(0, &first, "1 record");
    run(&["merge", &dir.file("empty", b""), &long_edit, "--may-be-empty"]).is(0, &first, "1 record");
    run(&["merge", &dir.file("bare", HEADER.as_bytes()), &short_edit]).is(0, &format!("{HEADER}{}", record('2', "refs/s/b")), "1 record");
    run(&["merge", &dir.path("bare"), &long_edit, "--sha1"]).is(2, "", "line 1: number 7: an id has not 40 digits");
    run(&["merge", &dir.path("bare"), &delete]).is(1, "", "number 13: ");

    let (short_id, long_id) = (dir.file("short-id", format!("{}\n", id('A')).as_bytes()), dir.file("long-id", long_id('B').as_bytes()));
    run(&["loose", &short_id]).is(0, &format!("0 id {}\n", id('A')), "");
    run(&["loose", &long_id]).is(0, &format!("0 id {}\n", "B".repeat(64)), "");
    run(&["loose", &long_id, "--sha256"]).is(0, &format!("0 id {}\n", "B".repeat(64)), "");
    run(&["loose", &long_id, "--sha1"]).is(2, "", "it holds an id of 64 digits. No answer: leave out --sha1.");
    run(&["loose", &short_id, "--sha256"]).is(2, "", "it holds an id of 40 digits. No answer: leave out --sha256.");
    run(&["loose", &dir.file("neither", b"11111\n")]).is(2, "", "number 15: ");
}

/// A name that is a directory of another can't be kept by Git.
#[test]
fn a_merge_makes_no_name_a_directory_of_another() {
    let dir = Dir::new();
    let old = dir.file("old", format!("{}{}", record('1', "refs/heads/a"), record('1', "refs/heads/b/c")).as_bytes());
    let before = dir.read("old");
    for (edits, directory, name) in [
        (update('2', "refs/heads/a/b"), "refs/heads/a", "refs/heads/a/b"),
        (update('2', "refs/heads/a/b/c/d"), "refs/heads/a", "refs/heads/a/b/c/d"),
        (update('2', "refs/heads/b"), "refs/heads/b", "refs/heads/b/c"),
        (update('2', "refs/heads"), "refs/heads", "refs/heads/a"),
        (format!("{}{}", update('2', "refs/x/y"), update('2', "refs/x")), "refs/x", "refs/x/y"),
        (format!("delete refs/heads/b/c\n{}", update('2', "refs/heads/a/x")), "refs/heads/a", "refs/heads/a/x"),
    ] {
        let list = dir.file("edits", edits.as_bytes());
        let words = format!("'{directory}' would be a directory of '{name}', and Git can't clone such a table. Nothing was written.");
        run(&["merge", &old, &list]).is(2, "", &words);
        run(&["merge", &old, &list, "-o", &old]).is(2, "", &words);
        assert_eq!(dir.read("old"), before);
        assert!(!dir.has("old.lock"));
        assert_eq!(run(&["merge", &old, &list, "--allow-nested-names"]).status, 0);
    }
    // names that only begin alike, a directory that goes, and what was so before
    for edits in [
        update('2', "refs/heads/ab"),
        update('2', "refs/heads/a-b/c"),
        format!("{}delete refs/heads/a\n", update('2', "refs/heads/a/b")),
        format!("{}delete refs/heads/b/c\n", update('2', "refs/heads/b")),
        update('2', "refs/heads/a"),
    ] {
        let list = dir.file("edits", edits.as_bytes());
        assert_eq!(run(&["merge", &old, &list]).status, 0, "{edits}");
    }
    let nested = dir.file("nested", format!("{}{}", record('1', "refs/a"), record('1', "refs/a/b")).as_bytes());
    for edits in [update('2', "refs/a"), update('2', "refs/a/b"), update('2', "refs/c")] {
        assert_eq!(run(&["merge", &nested, &dir.file("edits", edits.as_bytes())]).status, 0, "{edits}");
    }
    run(&["merge", &nested, &dir.file("edits", update('2', "refs/a/c").as_bytes())]).is(
        2,
        "",
        "'refs/a' would be a directory of 'refs/a/c'",
    );
}

/// The new file in the place of the edits would lose them.
#[test]
fn the_edits_are_not_written_over() {
    let dir = Dir::new();
    let edits = dir.file("edits", update('2', "refs/s/b").as_bytes());
    std::os::unix::fs::symlink(&edits, dir.path("link")).unwrap();
    std::fs::hard_link(&edits, dir.path("hard")).unwrap();
    for new in ["edits", "link", "hard", "../edits"] {
        let new = if new == "../edits" { format!("{}/./edits", dir.path("")) } else { dir.path(new) };
        run(&["merge", NIGHT, &edits, "-o", &new]).is(2, "", "edits are the edits themselves: they would be lost");
        shell(&format!("exec \"$@\" <'{edits}'"), &["merge", NIGHT, "-", "-o", &new]).is(2, "", "are the edits themselves");
    }
    assert_eq!(dir.read("edits"), update('2', "refs/s/b").as_bytes());
    assert!(!dir.has("edits.lock") && !dir.has("link.lock"));
}
