//! Runs the program, and gives it files to work on.
#![allow(dead_code)]
use std::io::Write;
use std::os::unix::process::ExitStatusExt;
use std::path::{Path, PathBuf};
use std::process::{Command, Output, Stdio};
use std::sync::atomic::{AtomicUsize, Ordering};

pub const PROGRAM: &str = env!("CARGO_BIN_EXE_packed-refs");

/// What is said before the first fault of a file that does not pass the check: once, and so of all that is charted there.
pub const IN_DAMAGED_FILE: &str = "packed-refs: every name that is charted here stands in a file that does not pass the check: its record may itself \
                                   be what the damage made. Stop, do not send, and call someone, who runs report on the file. Its first fault: ";

#[derive(Debug)]
pub struct Ran {
    /// The exit status, or the number of the signal that ended it, made negative.
    pub status: i32,
    pub out: String,
    pub err: String,
}

impl Ran {
    /// Status and standard output as given; standard error holds the words, or is empty where there are none.
    #[track_caller]
    pub fn is(&self, status: i32, out: &str, words: &str) {
        let is_said = if words.is_empty() { self.err.is_empty() } else { self.err.contains(words) };
        assert!(self.status == status && self.out == out && is_said, "wanted {status}, {out:?}, {words:?}, got {self:?}");
    }
}

impl From<Output> for Ran {
    fn from(output: Output) -> Ran {
        Ran {
            status: output.status.code().or(output.status.signal().map(|signal| -signal)).expect("it ended"),
            out: String::from_utf8(output.stdout).expect("output is text"),
            err: String::from_utf8(output.stderr).expect("messages are text"),
        }
    }
}

pub fn run(args: &[&str], input: &[u8]) -> Ran {
    let mut program = Command::new(PROGRAM);
    program.args(args).stdin(Stdio::piped()).stdout(Stdio::piped()).stderr(Stdio::piped());
    let mut program = program.spawn().expect("the program starts");
    // It may end without reading.
    let _ = program.stdin.take().expect("a pipe").write_all(input);
    program.wait_with_output().expect("the program ends").into()
}

/// Runs a line of shell in which `"$@"` is the program with these arguments.
pub fn shell(line: &str, args: &[&str]) -> Ran {
    let ran = Command::new("bash").args(["-c", line, "bash", PROGRAM]).args(args).stdin(Stdio::null()).output();
    ran.expect("bash starts").into()
}

/// Builds a library of tests/ that stands between the program and the system, by LD_PRELOAD.
pub fn shim(dir: &Dir, source: &str) -> String {
    let shim = dir.path(&format!("{source}.so"));
    let source = Path::new(env!("CARGO_MANIFEST_DIR")).join("tests").join(source);
    let built = Command::new("cc").args(["-shared", "-fPIC", "-O1", "-Wall", "-Werror", "-o", &shim]).arg(source).status();
    assert!(built.expect("a C compiler, cc").success());
    shim
}

/// Runs the program while something happens, by a line of shell; when, meanwhile.c says.
pub fn meanwhile(dir: &Dir, when: &str, line: &str, args: &[&str]) -> Ran {
    let line = format!("export LD_PRELOAD='{}' MEANWHILE_{when} MEANWHILE_DO=\"{line}\"; exec \"$@\"", shim(dir, "meanwhile.c"));
    shell(&line, args)
}

pub fn id(digit: char) -> String {
    digit.to_string().repeat(40)
}

/// A record with an id of one digit, and no peeled id.
pub fn record(digit: char, name: &str) -> String {
    format!("{} {name}\n", id(digit))
}

pub const HEADER: &str = "# pack-refs with: peeled fully-peeled sorted \n";

/// A directory of one test's own, removed behind it.
pub struct Dir(PathBuf);

impl Dir {
    pub fn new() -> Dir {
        static NEXT: AtomicUsize = AtomicUsize::new(0);
        let name = format!("packed-refs-test-{}-{}", std::process::id(), NEXT.fetch_add(1, Ordering::Relaxed));
        let path = std::env::temp_dir().join(name);
        std::fs::create_dir(&path).expect("a new directory");
        Dir(path)
    }

    pub fn path(&self, name: &str) -> String {
        self.0.join(name).into_os_string().into_string().expect("a path in UTF-8")
    }

    /// A file of that name with those bytes; its path.
    pub fn file(&self, name: &str, bytes: &[u8]) -> String {
        std::fs::write(self.0.join(name), bytes).expect("a file in our directory");
        self.path(name)
    }

    pub fn read(&self, name: &str) -> Vec<u8> {
        std::fs::read(self.0.join(name)).expect("a file in our directory")
    }

    pub fn has(&self, name: &str) -> bool {
        self.0.join(name).exists()
    }
}

impl Drop for Dir {
    fn drop(&mut self) {
        let _ = std::fs::remove_dir_all(&self.0);
    }
}
