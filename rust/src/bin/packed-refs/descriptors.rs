//! Standard input and output through their descriptors, so that every error is seen.
//!
//! The standard library's own take a descriptor that is closed, or open the wrong way round, for an empty input and for an output that was written.
//! Here they are plain files: reading and writing fail as the system says. And before `main` the standard library opens /dev/null in the place of a
//! closed descriptor; so the three are looked at before it does, and a closed one becomes a directory, which nobody can read from or write to.
//!
//! The `unsafe` here is the declaration of two C functions and the function that runs before `main`. That function calls nothing else: the standard
//! library is not set up yet. The two are called with a descriptor's number, constants and a constant string.
use std::ffi::{c_char, c_int};
use std::fs::File;
use std::io;
use std::os::fd::AsFd;
use std::sync::atomic::{AtomicBool, Ordering};

extern "C" {
    fn fcntl(descriptor: c_int, command: c_int, ...) -> c_int;
    fn open(path: *const c_char, flags: c_int, ...) -> c_int;
}

/// As Linux has them.
const F_GETFD: c_int = 1;
const O_RDONLY: c_int = 0;

/// Whether standard input, output and error were closed when the program began.
static CLOSED: [AtomicBool; 3] = [AtomicBool::new(false), AtomicBool::new(false), AtomicBool::new(false)];

/// Runs before `main`, and before the standard library looks.
extern "C" fn look() {
    for (descriptor, closed) in (0..).zip(&CLOSED) {
        // SAFETY: F_GETFD takes no further argument and changes nothing. The lowest free descriptor is this one, since those below are open by now;
        // the string ends in NUL. If the directory can't be opened either, the standard library does what it does, and CLOSED still knows.
        unsafe {
            if fcntl(descriptor, F_GETFD) == -1 {
                closed.store(true, Ordering::Relaxed);
                open(c"/".as_ptr(), O_RDONLY);
            }
        }
    }
}

// SAFETY: the loader calls each function of this section once, before `main`, by C's calling convention.
#[used]
#[link_section = ".init_array"]
static LOOK: extern "C" fn() = look;

/// Standard input as a file of its own.
pub fn input() -> io::Result<File> {
    opened(0, io::stdin())
}

/// Standard output as a file of its own.
pub fn output() -> io::Result<File> {
    opened(1, io::stdout())
}

fn opened(descriptor: usize, stream: impl AsFd) -> io::Result<File> {
    if CLOSED[descriptor].load(Ordering::Relaxed) {
        return Err(io::Error::other("it is closed"));
    }
    Ok(File::from(stream.as_fd().try_clone_to_owned()?))
}
