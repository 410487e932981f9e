//! Files opened whole or refused, and replaced as a whole under their lock with their rights.
mod common;

use common::Dir;
use packed_refs::*;
use std::fs::{self, File, OpenOptions};
use std::io::Write;
use std::os::unix::fs::{chown, MetadataExt, PermissionsExt};
use std::os::unix::process::CommandExt;
use std::process::Command;
use std::time::{Duration, Instant, SystemTime};

const KIND: IdKind = IdKind::Sha1;

fn line(digit: char, name: &str) -> String {
    format!("{} {name}\n", digit.to_string().repeat(40))
}

#[test]
fn a_file_of_zero_bytes_is_no_empty_table_unless_that_is_said() {
    let dir = Dir::new();
    let path = dir.file("empty", b"");
    for told in [Opener::new().bytes(&path).err(), Opener::new().open(KIND, &path).err(), Opener::new().check(KIND, &path).err()] {
        let error = told.expect("refused");
        assert!(matches!(error.trouble(), OpenTrouble::Empty), "{error}");
        let words = error.to_string();
        assert!(words.contains("empty has zero bytes. Do not send. ") && words.contains("with every record that was in it"), "{words}");
    }
    let table = Opener::new().may_be_empty(true).check(KIND, &path).unwrap();
    assert_eq!(table.find("refs/s/a"), Ok(Found::Absent));
    assert!(matches!(Opener::new().bytes_from(std::io::empty(), "standard input").unwrap_err().trouble(), OpenTrouble::Empty));
    // a header alone says that it is a table
    let header = dir.file("header", b"# pack-refs with: sorted \n");
    assert_eq!(Opener::new().check(KIND, &header).unwrap().find("refs/s/a"), Ok(Found::Absent));
}

#[test]
fn what_cannot_be_opened_says_why() {
    let dir = Dir::new();
    let open = |path: &str| Opener::new().check(KIND, path).unwrap_err();
    assert!(open(&dir.path("missing")).to_string().contains("missing is not there. Do not send."));
    assert!(open(&dir.path("")).to_string().contains(" can't be read: "));
    // what the check gives, with the line and its text
    let bad = open(&dir.file("bad", format!("{}x\r\n", line('1', "refs/s/a")).as_bytes()));
    let OpenTrouble::Refused(error) = bad.trouble() else { panic!("{bad}") };
    assert_eq!((error.number(), error.place(), error.line(), error.text()), (41, Some(50), Some(2), &b"x\r"[..]));
    let words = "bad: number 41: a record's id can't be read; the record starts at byte 50, on line 2; it reads 'x\\x0d'. Do not send. ";
    assert!(bad.to_string().contains(words), "{bad}");
    // over the limit, told by the length alone
    let large = File::create(dir.path("large")).unwrap();
    for size in [LARGEST_INPUT as u64 + 1, 100 * LARGEST_INPUT as u64] {
        large.set_len(size).unwrap();
        let begun = Instant::now();
        let large = open(&dir.path("large"));
        assert!(matches!(large.trouble(), OpenTrouble::Refused(error) if error.number() == 17), "{large}");
        assert!(begun.elapsed() < Duration::from_secs(5));
    }
}

#[test]
fn a_pipe_and_a_file_without_a_length_are_read_to_their_end() {
    let bytes: Vec<u8> = (0..3_000_000u32).map(|i| i as u8).collect();
    assert_eq!(Opener::new().bytes_from(&bytes[..], "bytes").unwrap(), bytes);
    assert!(!Opener::new().bytes("/proc/self/status").unwrap().is_empty());
}

/// Something is done to the file at each of the first so many readings.
fn opened_while(path: &str, times: usize, mut change: impl FnMut(usize)) -> Result<Vec<u8>, OpenError> {
    let mut done = 0;
    let seen = |_, _| {
        if done < times {
            done += 1;
            change(done);
        }
    };
    Opener::new().progress(seen).bytes(path)
}

#[test]
fn a_file_that_changes_while_it_is_read_is_read_anew() {
    let dir = Dir::new();
    let append = |path: &str| OpenOptions::new().append(true).open(path).unwrap().write_all(line('2', "refs/s/b").as_bytes()).unwrap();
    let replace = |path: &str, i: usize| {
        let new = dir.file("new", line('3', &format!("refs/s/{i}")).as_bytes());
        fs::rename(new, path).unwrap();
    };
    // the same length, at another time
    let touch = |path: &str, i: usize| {
        let file = OpenOptions::new().write(true).open(path).unwrap();
        file.set_modified(SystemTime::UNIX_EPOCH + Duration::from_secs(i as u64)).unwrap();
    };
    for (how, change) in [
        ("append", &(|path: &str, _: usize| append(path)) as &dyn Fn(&str, usize)),
        ("replace", &replace),
        ("touch", &touch),
        ("cut", &|path, i| OpenOptions::new().write(true).open(path).unwrap().set_len(50 - i as u64).unwrap()),
    ] {
        for times in [0, 1, 3] {
            let path = dir.file("table", line('1', "refs/s/a").as_bytes());
            let bytes = opened_while(&path, times, |i| change(&path, i)).unwrap();
            assert_eq!(bytes, dir.read("table"), "{how}, {times} times");
        }
        let path = dir.file("table", line('1', "refs/s/a").as_bytes());
        let error = opened_while(&path, usize::MAX, |i| change(&path, i)).unwrap_err();
        assert!(matches!(error.trouble(), OpenTrouble::Changed), "{how}: {error}");
    }
    // removed: not there, and never what stood there
    let path = dir.file("table", line('1', "refs/s/a").as_bytes());
    let error = opened_while(&path, 1, |_| fs::remove_file(&path).unwrap()).unwrap_err();
    assert!(matches!(error.trouble(), OpenTrouble::NotThere), "{error}");
}

/// A table that was written to just now may still be in the making: it is looked at again before anything is said of it.
#[test]
fn a_file_in_the_making_is_waited_for() {
    let dir = Dir::new();
    let path = dir.file("table", line('1', "refs/s/a").as_bytes());
    let rest = dir.file("rest", line('2', "refs/s/b").as_bytes());
    // a time ahead of our clock is just now, too, however long it takes to get there
    File::options().append(true).open(&path).unwrap().set_modified(SystemTime::now() + Duration::from_secs(3600)).unwrap();
    let mut part = part("part_in_the_making", "unlimited", &path);
    // the rest is written while the opener waits
    let line = format!("cat '{rest}' >>'{path}'");
    part.env("LD_PRELOAD", common::shim(&dir, "meanwhile.c")).env("MEANWHILE_WAIT", "1").env("MEANWHILE_DO", line);
    let ran = part.output().unwrap();
    assert!(ran.status.success(), "{ran:?}");
    assert_eq!(dir.read("table").len(), 100);
}

#[test]
#[ignore = "a part of another test, in a process of its own"]
fn part_in_the_making() {
    let path = std::env::var("PART_FILE").unwrap();
    let hasty = Opener::new().may_be_young(true).check(KIND, &path).unwrap();
    assert_eq!(hasty.find("refs/s/b"), Ok(Found::Absent));
    let table = Opener::new().check(KIND, &path).unwrap();
    assert!(matches!(table.find("refs/s/b"), Ok(Found::Charted(_))));
}

/// Runs one of the tests below that are parts of others, in a process of its own with so many KiB of memory and a file in the environment.
fn part(test: &str, memory: &str, file: &str) -> Command {
    let mut part = Command::new("sh");
    part.args(["-c", &format!("ulimit -v {memory}; exec \"$0\" \"$@\"")]).arg(std::env::current_exe().unwrap());
    part.args(["--exact", test, "--ignored", "--nocapture", "--test-threads", "1"]).env("PART_FILE", file);
    part
}

#[test]
fn too_little_memory_is_a_refusal() {
    let dir = Dir::new();
    File::create(dir.path("large")).unwrap().set_len(900_000_000).unwrap();
    let ran = part("part_with_too_little_memory", "250000", &dir.path("large")).output().unwrap();
    assert!(ran.status.success(), "{ran:?}");
}

#[test]
#[ignore = "a part of another test, in a process of its own"]
fn part_with_too_little_memory() {
    let path = std::env::var("PART_FILE").unwrap();
    let error = Opener::new().open(KIND, &path).unwrap_err();
    assert!(matches!(error.trouble(), OpenTrouble::NoMemory(900_000_000)), "{error}");
    // a stream, which does not say its length
    let error = Opener::new().bytes_from(File::open(&path).unwrap(), "a stream").unwrap_err();
    assert!(matches!(error.trouble(), OpenTrouble::NoMemory(_)), "{error}");
    // a merge that has no room for its new file, and says so instead of what the edits would make of it
    let mut old = Vec::with_capacity(150_000_000);
    old.extend_from_slice(line('1', "refs/s/a").trim_end().as_bytes());
    old.resize(149_999_999, b'a');
    old.push(b'\n');
    let mut edits = Edits::new(KIND);
    edits.update("refs/s/b", "2".repeat(40)).unwrap();
    assert_eq!(merge(&old, &edits).unwrap_err().number(), 12);
}

#[test]
fn a_lock_is_waited_for_and_given_back() {
    let dir = Dir::new();
    let path = dir.file("table", b"old");
    let lock = Lock::take(&path, LOCK_WAIT).unwrap();
    assert_eq!(lock.path(), std::path::Path::new(&dir.path("table.lock")));
    assert!(dir.has("table.lock"));
    let begun = Instant::now();
    let error = Lock::take(&path, LOCK_WAIT).unwrap_err();
    let waited = begun.elapsed();
    assert!(matches!(error.trouble(), SaveTrouble::Locked(lock) if *lock == *dir.path("table.lock")), "{error}");
    assert!(error.to_string().contains("table.lock is there: another program is writing"), "{error}");
    assert!(waited >= LOCK_WAIT && waited < 20 * LOCK_WAIT, "{waited:?}");
    // someone who needs it for less than the next one waits does not stop that one
    let begun = Instant::now();
    let holder = std::thread::spawn(move || {
        std::thread::sleep(Duration::from_millis(300));
        drop(lock);
    });
    let patient = 20 * LOCK_WAIT;
    drop(Lock::take(&path, patient).unwrap());
    assert!(begun.elapsed() >= Duration::from_millis(250) && begun.elapsed() < patient);
    holder.join().unwrap();
    assert!(!dir.has("table.lock"));
    assert_eq!(dir.read("table"), b"old");
}

#[test]
fn a_file_is_replaced_or_removed() {
    let dir = Dir::new();
    let path = dir.file("table", b"old");
    let mut seen = 0;
    let bytes = vec![b'n'; 3_000_000];
    let lost = Lock::take(&path, LOCK_WAIT).unwrap().replace(&bytes, Rights::Keep, |done| seen = done).unwrap();
    assert!(lost.is_nothing());
    assert_eq!((dir.read("table"), seen), (bytes, 3_000_000));
    Lock::take(&path, LOCK_WAIT).unwrap().remove().unwrap();
    assert!(!dir.has("table") && !dir.has("table.lock"));
    Lock::take(&path, LOCK_WAIT).unwrap().remove().unwrap();
    assert!(matches!(Lock::take(dir.path(""), LOCK_WAIT).unwrap_err().trouble(), SaveTrouble::NoRegularFile));
    assert!(matches!(Lock::take(dir.path("no/where"), LOCK_WAIT).unwrap_err().trouble(), SaveTrouble::System(..)));
    // a mode that umask would not give, and bits that a change of owner takes away
    for mode in [0o600, 0o640, 0o666, 0o2664] {
        let path = dir.file("table", b"old");
        fs::set_permissions(&path, PermissionsExt::from_mode(mode)).unwrap();
        assert!(Lock::take(&path, LOCK_WAIT).unwrap().replace("new", Rights::Keep, |_| {}).unwrap().is_nothing());
        assert_eq!(fs::metadata(&path).unwrap().mode() & 0o7777, mode);
    }
}

/// A file of another owner, replaced by nobody. Only root can make such a file.
#[test]
fn rights_are_kept_or_told_or_nothing_is_written() {
    const NOBODY: u32 = 65534;
    let dir = Dir::new();
    fs::set_permissions(dir.path(""), PermissionsExt::from_mode(0o777)).unwrap();
    if chown(dir.path(""), Some(0), Some(0)).is_err() || fs::metadata(dir.path("")).unwrap().uid() != 0 {
        eprintln!("rights: not tried, since only root can make a file of another owner");
        return;
    }
    let none = Lost::default();
    let foreign = Lost { owner: Some((0, NOBODY)), group: Some((0, NOBODY)), ..none };
    for (owner, group, mode, rights, wanted) in [
        (NOBODY, NOBODY, 0o600, "keep", Ok(none)),
        // the owner is lost, and the group still reads: told
        (0, NOBODY, 0o640, "keep", Ok(Lost { owner: Some((0, NOBODY)), ..none })),
        (0, NOBODY, 0o604, "keep", Ok(Lost { owner: Some((0, NOBODY)), ..none })),
        // no one who read the old file could read the new one
        (0, NOBODY, 0o600, "keep", Err("its owner is 65534 and was 0, its mode lets no one else read it")),
        (0, NOBODY, 0o600, "go on", Ok(Lost { owner: Some((0, NOBODY)), readers: true, ..none })),
        // the group is lost
        (0, 0, 0o644, "keep", Err("its owner is 65534 and was 0, its group is 0 and was 65534")),
        (0, 0, 0o644, "go on", Ok(foreign)),
        (NOBODY, 0, 0o644, "keep", Err("its group is")),
    ] {
        let path = dir.file("table", b"old");
        chown(&path, Some(owner), Some(group)).unwrap();
        fs::set_permissions(&path, PermissionsExt::from_mode(mode)).unwrap();
        let ran = part("part_that_replaces", "unlimited", &path).env("PART_RIGHTS", rights).uid(NOBODY).gid(NOBODY).output().unwrap();
        let said = String::from_utf8_lossy(&ran.stdout).into_owned();
        let when = format!("{owner} {group} {mode:o} {rights}: {said} {}", String::from_utf8_lossy(&ran.stderr));
        match wanted {
            Ok(lost) => {
                assert!(said.contains(&format!("<{lost:?}>")), "{when}");
                assert_eq!(dir.read("table"), b"new", "{when}");
                assert_eq!(fs::metadata(&path).unwrap().mode() & 0o7777, mode, "{when}");
            }
            Err(words) => {
                let words = words.replace("its group is 0 and was 65534", "its group is 65534 and was 0");
                assert!(said.contains("is as it was, since the new file would lose rights: ") && said.contains(&words), "{when}");
                assert_eq!(dir.read("table"), b"old", "{when}");
            }
        }
        assert!(!dir.has("table.lock"), "{when}");
    }
}

#[test]
#[ignore = "a part of another test, in a process of its own"]
fn part_that_replaces() {
    let path = std::env::var("PART_FILE").unwrap();
    let rights = if std::env::var("PART_RIGHTS").unwrap() == "keep" { Rights::Keep } else { Rights::GoOn };
    match Lock::take(path, LOCK_WAIT).unwrap().replace("new", rights, |_| {}) {
        Ok(lost) => println!("<{lost:?}>"),
        Err(error) => println!("{error}"),
    }
}

#[test]
fn merges_of_several_at_once_lose_nothing() {
    let dir = Dir::new();
    let path = dir.path("table");
    let threads: Vec<_> = (0..8)
        .map(|i| {
            let path = path.clone();
            std::thread::spawn(move || {
                let mut edits = Edits::new(KIND);
                edits.update(format!("refs/s/{i}"), "1".repeat(40)).unwrap();
                loop {
                    match merge_file(&path, &edits, Opener::new(), Rights::Keep) {
                        Ok(saved) => break assert_eq!(saved, Saved::New(Lost::default())),
                        Err(error) => assert!(matches!(error.trouble(), SaveTrouble::Locked(_)), "{error}"),
                    }
                }
            })
        })
        .collect();
    threads.into_iter().for_each(|thread| thread.join().unwrap());
    assert_eq!(Opener::new().check(KIND, &path).unwrap().table().len(), 8);

    let mut edits = Edits::new(KIND);
    edits.delete("refs/s/x").unwrap();
    assert_eq!(merge_file(&path, &edits, Opener::new(), Rights::Keep).unwrap(), Saved::NothingToDo);
    for i in 0..8 {
        edits.delete(format!("refs/s/{i}")).unwrap();
    }
    assert_eq!(merge_file(&path, &edits, Opener::new(), Rights::Keep).unwrap(), Saved::Removed);
    assert!(!dir.has("table") && !dir.has("table.lock"));
    // what is damaged, or has lost all its bytes, is left alone
    for (bytes, words) in [(&b"x\n"[..], "is as it was: number 41: "), (b"", "has zero bytes")] {
        dir.file("table", bytes);
        let error = merge_file(&path, &edits, Opener::new(), Rights::Keep).unwrap_err();
        assert!(error.to_string().contains(words), "{error}");
        assert_eq!(dir.read("table"), bytes);
        assert!(!dir.has("table.lock"));
    }
}

/// Git and this crate keep to one lock, and Git reads what was merged.
#[test]
fn git_keeps_to_the_same_lock() {
    let dir = Dir::new();
    let git = |args: &[&str]| {
        let user = [
            "-c",
            "user.name=n",
            "-c",
            "user.email=e",
            "-c",
            "core.packedRefsTimeout=0",
            "-c",
            "init.defaultObjectFormat=sha1",
            "-c",
            "init.defaultRefFormat=files",
        ];
        Command::new("git")
            .current_dir(dir.path(""))
            .env_clear()
            .envs(std::env::vars_os().filter(|(name, _)| name == "PATH"))
            .args(user)
            .args(args)
            .output()
    };
    if git(&["init", "-q", "."]).is_err() {
        eprintln!("the lock beside Git: not tried, since git is not there");
        return;
    }
    let said = |args: &[&str]| {
        let ran = git(args).unwrap();
        (ran.status.success(), String::from_utf8_lossy(&ran.stdout).into_owned(), String::from_utf8_lossy(&ran.stderr).into_owned())
    };
    assert!(said(&["commit", "-q", "--allow-empty", "-m", "m"]).0);
    assert!(said(&["tag", "-a", "-m", "t", "v1"]).0);
    let packed = dir.path(".git/packed-refs");
    let lock = Lock::take(&packed, LOCK_WAIT).unwrap();
    let (is_done, _, words) = said(&["pack-refs", "--all"]);
    assert!(!is_done && words.contains("packed-refs.lock"), "{words}");
    drop(lock);
    assert!(said(&["pack-refs", "--all"]).0);
    let table = Opener::new().check(KIND, &packed).unwrap();
    assert_eq!(table.table().len(), 2);

    let id = said(&["rev-parse", "HEAD"]).1;
    let mut edits = Edits::new(KIND);
    edits.update("refs/sent/a", id.trim()).unwrap();
    assert_eq!(merge_file(&packed, &edits, Opener::new(), Rights::Keep).unwrap(), Saved::New(Lost::default()));
    assert_eq!(said(&["rev-parse", "--verify", "refs/sent/a"]).1, id);
    assert_eq!(said(&["rev-parse", "v1^{commit}"]).1, id);
    assert_eq!(said(&["for-each-ref"]).1.lines().count(), 3);
}
