//! A merge that is killed, or whose disk fails, at each of its calls: the old file stands there or the new one, always whole.
mod common;

use common::{Dir, Ran};
use std::process::{Command, Stdio};

struct Merge {
    dir: Dir,
    shim: String,
    old: Vec<u8>,
    /// The file behind the merge, or none.
    new: Option<Vec<u8>>,
}

impl Merge {
    /// Of a file that takes several writes or of a small one; of edits that leave records or that leave none.
    fn new(records: usize, is_last: bool) -> Merge {
        let dir = Dir::new();
        let shim = common::shim(&dir, "shim.c");
        let lines = |digit: &str| (0..records).map(|i| format!("{} refs/s/{i:07}\n", digit.repeat(40))).collect::<String>();
        let old = lines("1");
        let edits: String = if is_last {
            (0..records).map(|i| format!("delete refs/s/{i:07}\n")).collect()
        } else {
            format!("update refs/s/{:07} {}\n", 0, "2".repeat(40))
        };
        dir.file("edits", edits.as_bytes());
        let header = "# pack-refs with: peeled fully-peeled sorted \n";
        let new = (!is_last).then(|| format!("{header}{}", old.replacen(&"1".repeat(40), &"2".repeat(40), 1)).into_bytes());
        Merge { dir, shim, old: old.into_bytes(), new }
    }

    /// The old file is put back, and the merge is run with the shim; gives what it said and the calls that it made.
    fn run(&self, at: usize, how: &str, errno: i32) -> (Ran, Vec<String>) {
        let _ = std::fs::remove_file(self.dir.path("refs.lock"));
        let _ = std::fs::remove_file(self.dir.path("log"));
        let refs = self.dir.file("refs", &self.old);
        let ran = Command::new(common::PROGRAM)
            .args(["merge", &refs, &self.dir.path("edits"), "-o", &refs])
            .env("LD_PRELOAD", &self.shim)
            .env("SHIM_AT", at.to_string())
            .env("SHIM_HOW", how)
            .env("SHIM_ERRNO", errno.to_string())
            .env("SHIM_LOG", self.dir.path("log"))
            .stdin(Stdio::null())
            .output()
            .unwrap();
        let log = String::from_utf8(self.dir.read("log")).unwrap();
        (ran.into(), log.lines().map(String::from).collect())
    }

    /// The file as it is now, which is the old one or the new one.
    fn stands(&self, when: &str) -> Option<Vec<u8>> {
        let now = self.dir.has("refs").then(|| self.dir.read("refs"));
        assert!(now == self.new || now.as_ref() == Some(&self.old), "{when}: the file is neither the old one nor the new one");
        now
    }

    /// Once more, without a shim, as the person at night does it. (That a lock which was left is refused is seen once: it is waited for.)
    fn again(&self, when: &str, is_lock_tried: bool) {
        let refs = self.dir.path("refs");
        let args = ["merge", &refs, &self.dir.path("edits"), "-o", &refs];
        if self.dir.has("refs.lock") {
            if is_lock_tried {
                let before = self.stands(when);
                common::run(&args, b"").is(2, "", "refs.lock is there");
                assert_eq!(self.stands(when), before);
            }
            std::fs::remove_file(self.dir.path("refs.lock")).unwrap();
        }
        // a merge that removed the file has nothing to do now
        let status = if self.dir.has("refs") { 0 } else { 1 };
        let ran = common::run(&args, b"");
        assert_eq!(ran.status, status, "{when}: {ran:?}");
        assert!(self.stands(when) == self.new, "{when}");
        assert!(!self.dir.has("refs.lock"));
    }
}

fn merges() -> [Merge; 3] {
    [Merge::new(3, false), Merge::new(60_000, false), Merge::new(3, true)]
}

#[test]
fn the_calls_stand_in_the_order_that_keeps_a_file_whole() {
    let [small, large, last] = merges();
    let order = |merge: &Merge| {
        let (ran, mut log) = merge.run(0, "", 0);
        ran.is(0, "", if merge.new.is_none() { "number 14" } else { "the new file has " });
        assert!(merge.stands("done") == merge.new);
        log.dedup();
        log
    };
    let replaced = ["create", "fchmod", "write", "fsync file", "rename", "fsync directory"];
    assert_eq!(order(&small), replaced);
    assert_eq!(order(&large), replaced);
    assert!(large.run(0, "", 0).1.len() >= replaced.len() + 3, "several writes");
    assert_eq!(order(&last), ["create", "unlink file", "fsync directory", "unlink lock"]);
}

const KILL: i32 = 9;

#[test]
fn killed_at_each_call() {
    for merge in merges() {
        let calls = merge.run(0, "", 0).1.len();
        for how in ["before", "after", "half"] {
            for at in 1..=calls {
                let when = format!("killed {how} call {at} of {calls}");
                let (ran, log) = merge.run(at, how, 0);
                if how == "half" && log.len() == calls {
                    continue; // that call was no write
                }
                assert_eq!(ran.status, -KILL, "{when}: {ran:?}");
                let now = merge.stands(&when);
                let is_done = log.iter().any(|call| call == "rename" || call == "unlink file");
                assert!(now.as_ref() == if is_done { merge.new.as_ref() } else { Some(&merge.old) }, "{when}: {log:?}");
                merge.again(&when, at == 2 && how == "before");
            }
        }
    }
}

/// A signal that someone sends ends the program by that signal, and takes the lock away, whenever it comes.
#[test]
fn signalled_at_each_call() {
    let [hup, int, term] = [1, 2, 15];
    for merge in merges() {
        let calls = merge.run(0, "", 0).1.len();
        for (signal, how) in [(hup, "signal"), (int, "signalled"), (term, "signal"), (term, "signalled")] {
            for at in 1..=calls {
                let when = format!("{how} {signal} at call {at} of {calls}");
                let (ran, log) = merge.run(at, how, signal);
                // The very last call gives the lock back: the signal may come when all is done.
                assert_eq!(ran.status, -signal, "{when}: {ran:?}");
                assert!(!merge.dir.has("refs.lock"), "{when}: the lock was left: {log:?}");
                let now = merge.stands(&when);
                let is_done = log.iter().any(|call| call == "rename" || call == "unlink file");
                assert!(now.as_ref() == if is_done { merge.new.as_ref() } else { Some(&merge.old) }, "{when}: {log:?}");
                merge.again(&when, false);
            }
        }
    }
}

#[test]
fn failed_at_each_call() {
    const EIO: i32 = 5;
    const ENOSPC: i32 = 28;
    for merge in merges() {
        let calls = merge.run(0, "", 0).1.len();
        for errno in [EIO, ENOSPC] {
            for at in 1..=calls {
                let when = format!("error {errno} at call {at} of {calls}");
                let (ran, log) = merge.run(at, "fail", errno);
                let now = merge.stands(&when);
                let is_done = log.iter().any(|call| call == "rename" || call == "unlink file");
                assert!(now.as_ref() == if is_done { merge.new.as_ref() } else { Some(&merge.old) }, "{when}: {log:?}");
                if merge.new.is_none() && at == calls {
                    // the lock could not be removed: the merge is done, and the next one will ask
                    assert!(merge.dir.has("refs.lock"));
                } else {
                    assert_eq!(ran.status, 2, "{when}: {ran:?}");
                    assert!(ran.err.contains("os error"), "{when}: {ran:?}");
                    assert!(!merge.dir.has("refs.lock"), "{when}: the lock was left");
                }
                merge.again(&when, false);
            }
        }
    }
}

#[test]
fn a_write_that_does_less_is_gone_on_with() {
    let [small, _, _] = merges();
    let (ran, log) = small.run(3, "short", 0);
    ran.is(0, "", "the new file has 3 records");
    assert_eq!(log.iter().filter(|call| *call == "write").count(), 2, "{log:?}");
    assert!(small.stands("short write") == small.new);
}
