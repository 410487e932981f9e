//! Habits that people have: options anywhere, help, names from a file, JSON, quiet; and messages that show what they speak of.
mod common;

use common::{id, record, shell, Dir, Ran, HEADER, IN_DAMAGED_FILE};

const NIGHT: &str = concat!(env!("CARGO_MANIFEST_DIR"), "/../examples/night");
const DAMAGED: &str = concat!(env!("CARGO_MANIFEST_DIR"), "/../examples/damaged");
const EDITS: &str = concat!(env!("CARGO_MANIFEST_DIR"), "/../examples/edits");
const E2: &str = "refs/sent/ward4/o118/e2";
const E3: &str = "refs/sent/ward4/o118/e3";
const E4: &str = "refs/sent/ward4/o118/e4";
const COMMANDS: [&str; 6] = ["check", "lookup", "list", "report", "merge", "loose"];

fn run(args: &[&str]) -> Ran {
    common::run(args, b"")
}

#[test]
fn options_stand_anywhere() {
    let dir = Dir::new();
    let absent = format!("5 absent {E4}\n");
    for args in [
        &["--sha1", "lookup", NIGHT, E4][..],
        &["lookup", "--sha1", NIGHT, E4],
        &["lookup", NIGHT, "--sha1", E4],
        &["lookup", NIGHT, E4, "--sha1"],
        &["lookup", "--", NIGHT, E4],
        &["--", "lookup", NIGHT, E4],
        &["--sha1", "--", "lookup", NIGHT, E4],
        &["--records", "28", "lookup", NIGHT, E4],
        &["lookup", NIGHT, "--records=28", E4, "--sha1", "--sha1"],
    ] {
        run(args).is(1, &absent, "");
    }
    // a value is a value, whatever it looks like
    let odd = dir.file("--sha256", record('1', "refs/s/a").as_bytes());
    assert!(odd.ends_with("/--sha256"));
    let inside = format!("cd '{}' && \"$@\"", dir.path(""));
    shell(&inside, &["check", "--", "--sha256"]).is(0, "0 passed: 1 record\n", "");
    shell(&inside, &["lookup", NIGHT, "--names", "--sha256"]).is(2, "", "number 3: ");
    dir.file("new", record('1', "refs/s/a").as_bytes());
    for args in [&["merge", NIGHT, EDITS, "-onew"][..], &["merge", "--output=new", NIGHT, EDITS], &["merge", NIGHT, "-qo", "new", EDITS]] {
        let ran = shell(&inside, args);
        assert_eq!((ran.status, ran.out.as_str()), (0, ""), "{args:?}: {ran:?}");
    }
    shell(&inside, &["merge", NIGHT, EDITS, "-o", "--", "--json"]).is(
        0,
        "{\"answer\":\"written\",\"status\":0,\"number\":0,\"file\":\"--\",\"records\":28}\n",
        "28",
    );
    assert!(dir.has("--"));
}

#[test]
fn help_and_version() {
    let all = run(&["--help"]);
    assert_eq!((all.status, all.err.as_str()), (0, ""));
    for args in [&["-h"][..], &["help"], &["--help", "--sha1"], &["--sha256", "-h"]] {
        run(args).is(0, &all.out, "");
    }
    for command in COMMANDS {
        let help = run(&[command, "--help"]);
        assert!(help.out.starts_with(&format!("usage: packed-refs {command} ")), "{help:?}");
        for args in [&["help", command][..], &[command, "-h"], &["--help", command], &[command, "a", "b", "--help"]] {
            run(args).is(0, &help.out, "");
        }
        assert!(all.out.contains(&format!("\n  {command} ")), "{command}");
    }
    for option in
        ["--sha1", "--sha256", "--may-be-empty", "--records N", "--names FILE", "-z, --null", "-o, --output NEW", "--json", "-q, --quiet"]
    {
        assert!(all.out.contains(&format!("\n  {option} ")), "{option}");
    }
    for option in ["--allow-nested-names", "--allow-other-rights"] {
        assert!(all.out.contains(option) && !run(&["lookup", "--help"]).out.contains(option), "{option}");
    }
    assert!(all.out.lines().all(|line| line.len() <= 140));
    let version = concat!("packed-refs ", env!("CARGO_PKG_VERSION"), "\n");
    for args in [&["--version"][..], &["-V"], &["check", "-V"], &["--sha1", "--version"]] {
        run(args).is(0, version, "");
    }
}

#[test]
fn wrong_usage_is_64_and_asks_nothing() {
    let dir = Dir::new();
    let new = dir.path("new");
    for args in [
        &["lookup", "--sha265", NIGHT, E3][..],
        &["lookup", NIGHT, E3, "-x"],
        &["lookup", NIGHT, E3, "-x", "--help"],
        &["check", "--records", "1", NIGHT],
        &["check", "--names", NIGHT, NIGHT],
        &["check", "-z", NIGHT],
        &["loose", "--may-be-empty", NIGHT],
        &["list", "-o", &new, NIGHT],
        &["lookup", NIGHT, E3, "--records"],
        &["lookup", NIGHT, E3, "--records", "1", "--records", "1"],
        &["lookup", NIGHT, "--names"],
        &["lookup", "-", "--names", "-"],
        &["lookup", NIGHT, E3, "-z"],
        &["lookup", "--names", NIGHT],
        &["check", "--json=yes", NIGHT],
        &["check", "--sha1", "--sha256", NIGHT],
        &["list", "--json", "-z", NIGHT],
        &["merge", NIGHT, EDITS, "--json"],
        &["merge", NIGHT, EDITS, "--json", "-o", "-"],
        &["help", "find"],
        &["help", "check", "list"],
        &["find", "--help"],
        &["--json"],
        &["-"],
        &["--"],
        &[""],
    ] {
        let ran = run(args);
        assert_eq!((ran.status, ran.out.as_str()), (64, ""), "{args:?}: {ran:?}");
        assert!(ran.err.starts_with("packed-refs: ") && ran.err.ends_with("packed-refs: try --help\n"), "{args:?}: {ran:?}");
    }
    assert!(!dir.has("new"));
}

/// Names in quotes: an empty one, and a space at the end, are seen. A name that breaks a rule is told which.
#[test]
fn messages_show_what_they_speak_of() {
    let dir = Dir::new();
    for (name, quoted, rule) in [
        ("", "''", "it is empty"),
        ("refs/s/a ", "'refs/s/a '", "it holds a space"),
        ("refs/it's~", "'refs/it\\x27s~'", "it holds one of ~ ^ : ? * [ \\"),
        ("refs/\x07", "'refs/\\x07'", "it holds a control byte"),
        ("main", "'main'", "it has no slash"),
        ("refs//a", "'refs//a'", "it holds two slashes in a row"),
        ("refs/a/", "'refs/a/'", "it ends with a slash"),
        ("refs/.a", "'refs/.a'", "a part of it begins with a dot"),
        ("refs/a..b", "'refs/a..b'", "it holds two dots in a row"),
        ("refs/a.", "'refs/a.'", "it ends with a dot"),
        ("refs/a.lock", "'refs/a.lock'", "a part of it ends with .lock"),
        ("refs/e3.lock/a", "'refs/e3.lock/a'", "a part of it ends with .lock"),
        ("refs/a@{b", "'refs/a@{b'", "it holds @{"),
    ] {
        let words = format!("no answer for {quoted}: number 3: the name breaks the name rules: {rule}. Do not send. ");
        run(&["lookup", NIGHT, name]).is(2, "", &words);
        if !name.is_empty() && !name.contains(' ') {
            let edits = dir.file("edits", format!("# one\ndelete {name}\n").as_bytes());
            let words = format!("edits, line 2: number 8: the name {quoted} breaks a name rule: {rule}. ");
            run(&["merge", NIGHT, &edits]).is(2, "", &words);
        }
    }
    let long = dir.file("edits", format!("delete refs/{}\n", "a".repeat(4092)).as_bytes());
    run(&["merge", NIGHT, &long]).is(2, "", "line 1: number 8: the name has 4097 bytes, and at most 4,096 are taken. ");
    // places are lines of the edits file, and not bytes of a list that nobody sees
    let twice = dir.file("edits", b"# a comment\ndelete refs/s/b\n\ndelete refs/s/a\ndelete refs/s/b\n");
    let ran = run(&["merge", NIGHT, &twice]);
    ran.is(2, "", "edits, line 5: number 11: 'refs/s/b' was edited on line 2 already. ");
    assert!(!ran.err.contains("byte"), "{ran:?}");
    let many: String = (0..5_000).map(|i| format!("delete refs/s/{i}\n#\n")).collect();
    let ran = run(&["merge", NIGHT, &dir.file("edits", many.as_bytes())]);
    ran.is(2, "", "edits, line 8193: number 9: there are more than 4,096 edits. ");
    assert!(!ran.err.contains("byte"), "{ran:?}");
    // files, too, where their name is odd
    run(&["check", ""]).is(2, "", "packed-refs: '' is not there");
    run(&["check", &dir.path("a b ")]).is(2, "", "/a b ' is not there");
    // one record
    run(&["check", &dir.file("one", record('1', "refs/s/a").as_bytes())]).is(0, "0 passed: 1 record\n", "");
    run(&["report", &dir.path("one")]).is(0, "total: 1 record, 0 damaged, 0 out of order, 50 bytes\n", "");
    // no advice by which a charted name becomes absent
    for ran in [run(&["lookup", DAMAGED, E2]), run(&["check", DAMAGED]), run(&["merge", DAMAGED, EDITS])] {
        for harm in ["last night", "remove the new one", "delete the line", "put back"] {
            assert!(!ran.err.contains(harm), "{harm}: {ran:?}");
        }
    }
}

#[test]
fn names_from_a_file() {
    let dir = Dir::new();
    let charted = format!("0 charted {E3} 00000000000000000000000000000000003ed5f3 byte 956\n");
    let absent = format!("5 absent {E4}\n");
    let names = dir.file("names", format!("{E3}\n{E4}\r\n").as_bytes());
    run(&["lookup", NIGHT, "--names", &names]).is(1, &format!("{charted}{absent}"), "");
    run(&["lookup", NIGHT, E4, "--names", &names, E3]).is(1, &format!("{absent}{charted}{charted}{absent}"), "");
    common::run(&["lookup", NIGHT, "--names", "-"], format!("{E3}\n").as_bytes()).is(0, &charted, "");
    common::run(&["lookup", "-", "--names", &names], &std::fs::read(NIGHT).unwrap()).is(1, &format!("{charted}{absent}"), "");
    common::run(&["lookup", NIGHT, "--names", "-", "-z"], format!("{E3}\0{E4}\0").as_bytes()).is(1, &format!("{charted}{absent}"), "");
    // each line is a name as it stands, an empty one too
    common::run(&["lookup", NIGHT, "--names", "-"], format!("{E3}\n\n# no comment\n").as_bytes()).is(
        2,
        &charted,
        "no answer for '': number 3: ",
    );
    common::run(&["lookup", NIGHT, "--names", "-", "-z"], format!("{E3}\n\0").as_bytes()).is(2, "", "\\x0a': number 3: ");
    // a list that may have been cut is not asked, and one without a name asks nothing
    common::run(&["lookup", NIGHT, "--names", "-"], E3.as_bytes()).is(2, "", "standard input, line 1: no line feed ends the last name");
    common::run(&["lookup", NIGHT, "--names", "-"], format!("{E3}\n{E4}").as_bytes()).is(
        2,
        "",
        "standard input, line 2: no line feed ends",
    );
    common::run(&["lookup", NIGHT, "--names", "-", "-z"], format!("{E3}\n").as_bytes()).is(2, "", "no NUL ends the last name");
    for empty in
        [&["lookup", NIGHT, "--names", "-"][..], &["lookup", NIGHT, "--names", "-", "-z"], &["lookup", NIGHT, "--names", "-", "-q"]]
    {
        common::run(empty, b"").is(2, "", "there is no name in it: nothing was asked");
    }
    run(&["lookup", NIGHT, "--names", &dir.path("missing")]).is(2, "", "missing is not there");
}

#[test]
fn a_raw_listing_ends_its_records_by_nul() {
    let dir = Dir::new();
    let lines =
        [record('1', "refs/s/a").into_bytes(), [id('2').as_bytes(), b" refs/s/\xff\n"].concat(), format!("^{}\n", id('3')).into_bytes()]
            .concat();
    let table = dir.file("table", &lines);
    let ran = std::process::Command::new(common::PROGRAM).args(["list", "-z", &table]).output().unwrap();
    let expected =
        [format!("refs/s/a {}\0refs/s/", id('1')).as_bytes(), b"\xff ", format!("{} {}\0", id('2'), id('3')).as_bytes()].concat();
    assert_eq!((ran.status.code(), ran.stdout), (Some(0), expected));
    run(&["list", &table]).is(0, &format!("refs/s/a {}\nrefs/s/\\xff {} {}\n", id('1'), id('2'), id('3')), "");
}

#[test]
fn quiet_says_it_by_the_status() {
    let dir = Dir::new();
    let loose = dir.file("loose", b"ref: refs/s/a\n");
    run(&["lookup", NIGHT, E3, "-q"]).is(0, "", "");
    run(&["lookup", NIGHT, E4, "--quiet"]).is(1, "", "");
    run(&["lookup", NIGHT, "s/x", "--quiet", "--json"]).is(1, "", "");
    run(&["check", NIGHT, "-q"]).is(0, "", "");
    run(&["report", NIGHT, "-q"]).is(0, "", "");
    run(&["report", DAMAGED, "-q"]).is(2, "", "");
    run(&["loose", &loose, "-q"]).is(0, "", "");
    // why there is no answer is still said, and what is to be written is written
    run(&["lookup", DAMAGED, E4, "-q"]).is(2, "", "number 41: ");
    run(&["check", DAMAGED, "-q"]).is(2, "", "number 41: ");
    // and what the status does not say
    run(&["lookup", DAMAGED, E3, "-q"]).is(0, "", IN_DAMAGED_FILE);
    let listed = run(&["list", NIGHT]);
    run(&["list", NIGHT, "-q"]).is(0, &listed.out, "");
    let merged = run(&["merge", NIGHT, EDITS]);
    run(&["merge", NIGHT, EDITS, "-q"]).is(0, &merged.out, "");
    run(&["merge", NIGHT, EDITS, "-q", "--json", "-o", &dir.path("new")]).is(0, "", "");
    run(&["merge", NIGHT, &dir.file("none", b""), "-q"]).is(1, "", "");
}

/// Every form of docs/JSON.md.
#[test]
fn lines_of_json() {
    let dir = Dir::new();
    let in_dir = |args: &[&str]| shell(&format!("cd '{}' && \"$@\"", dir.path("")), args);
    dir.file("table", format!("{HEADER}{}{}^{}\n", record('1', "refs/s/a"), record('2', "refs/s/b"), id('3')).as_bytes());
    dir.file("wild", [b"#\"\n", record('2', "refs/s/b").as_bytes(), b"\xff\x1b\n", record('1', "refs/s/a").as_bytes()].concat().as_slice());
    dir.file("edits", format!("update refs/s/c {}\n", id('4')).as_bytes());
    let (one, two, three) = (id('1'), id('2'), id('3'));

    let passed = "{\"answer\":\"passed\",\"status\":0,\"number\":0,\"file\":\"table\",\"records\":2,\"digits\":40}\n";
    in_dir(&["check", "table", "--json"]).is(0, passed, "");
    let charted = format!(
        "{{\"answer\":\"charted\",\"status\":0,\"number\":0,\"name\":\"refs/s/b\",\"id\":\"{two}\",\"peeled\":\"{three}\",\"byte\":96}}\n"
    );
    let absent = "{\"answer\":\"absent\",\"status\":1,\"number\":5,\"name\":\"refs/s/\\u00e4\"}\n";
    in_dir(&["lookup", "table", "refs/s/b", "refs/s/\u{e4}", "--json"]).is(1, &format!("{charted}{absent}"), "");
    let records = format!(
        "{{\"answer\":\"record\",\"name\":\"refs/s/a\",\"id\":\"{one}\",\"byte\":46}}\n\
         {{\"answer\":\"record\",\"name\":\"refs/s/b\",\"id\":\"{two}\",\"peeled\":\"{three}\",\"byte\":96}}\n\
         {{\"answer\":\"listed\",\"status\":0,\"number\":0,\"file\":\"table\",\"records\":2}}\n"
    );
    in_dir(&["list", "table", "--json"]).is(0, &records, "");
    let report = "{\"answer\":\"no header\",\"number\":2,\"line\":1,\"byte\":0,\"text\":\"#\\\"\",\"length\":2}\n\
                  {\"answer\":\"damaged\",\"number\":41,\"line\":3,\"byte\":53,\"text_hex\":\"ff1b\",\"length\":2}\n\
                  {\"answer\":\"out of order\",\"number\":6,\"line\":4,\"byte\":56,\"name\":\"refs/s/a\"}\n\
                  {\"answer\":\"total\",\"status\":2,\"file\":\"wild\",\"records\":2,\"damaged\":2,\"unsorted\":1,\"bytes\":106}\n";
    in_dir(&["report", "wild", "--json"]).is(2, report, "");
    // charted in a file that does not pass the check, and a name that breaks a rule
    dir.file("lock", format!("{}{}", record('1', "refs/s/a"), record('2', "refs/s/b.lock")).as_bytes());
    let charted =
        format!("{{\"answer\":\"charted\",\"status\":0,\"number\":0,\"name\":\"refs/s/a\",\"id\":\"{one}\",\"byte\":0,\"fault\":44}}\n");
    in_dir(&["lookup", "lock", "refs/s/a", "--json"]).is(0, &charted, IN_DAMAGED_FILE);
    let damaged = format!(
        "{{\"answer\":\"damaged\",\"number\":44,\"line\":2,\"byte\":50,\"text\":\"{two} refs/s/b.lock\",\"length\":54,\
         \"rule\":\"a part of it ends with .lock\"}}\n\
         {{\"answer\":\"total\",\"status\":2,\"file\":\"lock\",\"records\":1,\"damaged\":1,\"unsorted\":0,\"bytes\":105}}\n"
    );
    in_dir(&["report", "lock", "--json"]).is(2, &damaged, "");
    let written = "{\"answer\":\"written\",\"status\":0,\"number\":0,\"file\":\"new\",\"records\":3}\n";
    in_dir(&["merge", "table", "edits", "-o", "new", "--json"]).is(0, written, "the new file has 3 records");
    dir.file("edits", b"delete refs/s/x\n");
    let nothing = "{\"answer\":\"nothing to do\",\"status\":1,\"number\":13,\"file\":\"new\",\"records\":2}\n";
    in_dir(&["merge", "table", "edits", "-o", "new", "--json"]).is(1, nothing, "number 13");
    dir.file("edits", b"delete refs/s/a\ndelete refs/s/b\n");
    let removed = "{\"answer\":\"removed\",\"status\":0,\"number\":14,\"file\":\"new\",\"records\":0}\n";
    in_dir(&["merge", "table", "edits", "-o", "new", "--json"]).is(0, removed, "number 14");
    dir.file("loose", format!("{one}\n").as_bytes());
    in_dir(&["loose", "loose", "--json"]).is(
        0,
        &format!("{{\"answer\":\"id\",\"status\":0,\"number\":0,\"file\":\"loose\",\"id\":\"{one}\"}}\n"),
        "",
    );
    dir.file("loose", b"ref: refs/s/a\n");
    in_dir(&["loose", "loose", "--json"]).is(
        0,
        "{\"answer\":\"symbolic\",\"status\":0,\"number\":0,\"file\":\"loose\",\"name\":\"refs/s/a\"}\n",
        "",
    );

    // no answer: the last key is the message, which standard error has too
    let none = |args: &[&str], start: &str| {
        let ran = in_dir(args);
        assert_eq!(ran.status, 2, "{args:?}: {ran:?}");
        let line = ran.out.lines().last().unwrap();
        let message = line.strip_prefix(start).unwrap_or_else(|| panic!("{args:?}: {ran:?}"));
        let message = message.strip_suffix("\"}").unwrap().replace("\\\"", "\"");
        assert!(ran.err.contains(&message), "{args:?}: {ran:?}");
    };
    none(&["check", "missing", "--json"], "{\"answer\":\"none\",\"status\":2,\"file\":\"missing\",\"message\":\"missing is not there");
    none(
        &["lookup", "wild", "refs/s/x", "--json"],
        "{\"answer\":\"none\",\"status\":2,\"number\":2,\"file\":\"wild\",\"name\":\"refs/s/x\",\"line\":1,\"byte\":0,\"text\":\"#\\\"\",\
         \"length\":2,\"message\":\"",
    );
    none(
        &["lookup", "table", "x", "--json"],
        "{\"answer\":\"none\",\"status\":2,\"number\":3,\"name\":\"x\",\"message\":\"no answer for 'x': number 3: ",
    );
    none(
        &["lookup", "table", "refs/x", "--records", "3", "--json"],
        "{\"answer\":\"none\",\"status\":2,\"file\":\"table\",\"name\":\"refs/x\",\"message\":\"",
    );
    none(
        &["list", "wild", "--json"],
        "{\"answer\":\"none\",\"status\":2,\"number\":2,\"file\":\"wild\",\"line\":1,\"byte\":0,\"text\":\"#\\\"\",\"length\":2,\"message\":\"",
    );
    // of a bad record the line, the place and the text, from each command; of a name out of order no text
    let bad = |name: &str| {
        format!(
            "{{\"answer\":\"none\",\"status\":2,\"number\":44,\"file\":\"lock\",{name}\"line\":2,\"byte\":50,\"text\":\"{two} refs/s/b.lock\",\
             \"length\":54,\"message\":\"lock, line 2: "
        )
    };
    none(&["check", "lock", "--json"], &bad(""));
    none(&["merge", "lock", "edits", "-o", "new", "--json"], &bad(""));
    none(&["lookup", "lock", "refs/s/x", "--json"], &bad("\"name\":\"refs/s/x\","));
    none(&["list", "lock", "--json"], &bad(""));
    let listed = in_dir(&["list", "lock", "--json"]);
    assert_eq!(listed.out.lines().nth(1), damaged.lines().next(), "{listed:?}");
    dir.file("mixed", format!("{}^{}\n{}", record('2', "refs/s/b"), id('3'), record('1', "refs/s/a")).as_bytes());
    none(
        &["check", "mixed", "--json"],
        "{\"answer\":\"none\",\"status\":2,\"number\":6,\"file\":\"mixed\",\"line\":3,\"byte\":92,\"message\":\"mixed, line 3: number 6: ",
    );
    dir.file("edits", b"\ndelete x\n");
    none(
        &["merge", "table", "edits", "-o", "new", "--json"],
        "{\"answer\":\"none\",\"status\":2,\"number\":8,\"file\":\"edits\",\"line\":2,\"message\":\"",
    );
    let piped = common::run(&["check", "-", "--json"], b"x\n");
    assert!(piped.out.starts_with("{\"answer\":\"none\",\"status\":2,\"number\":41,\"file\":\"-\",\"line\":1,\"byte\":0,"), "{piped:?}");
    assert!(piped.err.starts_with("packed-refs: standard input, line 1: number 41: "), "{piped:?}");
}
