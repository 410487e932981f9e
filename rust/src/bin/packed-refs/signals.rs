//! What signals do: the lock is taken away before one of them ends the program, and an abort is no answer.
//!
//! The `unsafe` here is the declarations of C functions and their calls. The handlers call only what POSIX lists as async-signal-safe (signal, raise,
//! unlink, write, _exit) and touch one atomic pointer. It is null, or leads to a C string that is never freed.
use std::ffi::{c_char, c_int, CString};
use std::os::unix::ffi::OsStrExt;
use std::path::Path;
use std::ptr::null_mut;
use std::sync::atomic::{AtomicPtr, Ordering};

/// C's sigset_t, which has at most 1,024 bits on Linux.
type SignalSet = [u64; 16];

extern "C" {
    fn signal(number: c_int, handler: usize) -> usize;
    fn raise(number: c_int) -> c_int;
    fn unlink(path: *const c_char) -> c_int;
    fn write(descriptor: c_int, bytes: *const u8, length: usize) -> isize;
    fn _exit(status: c_int) -> !;
    fn sigemptyset(set: *mut SignalSet) -> c_int;
    fn sigaddset(set: *mut SignalSet, number: c_int) -> c_int;
    fn pthread_sigmask(how: c_int, set: *const SignalSet, old: *mut SignalSet) -> c_int;
}

// As Linux has them on x86-64 and Arm.
const SIGHUP: c_int = 1;
const SIGINT: c_int = 2;
const SIGQUIT: c_int = 3;
const SIGABRT: c_int = 6;
const SIGTERM: c_int = 15;
const SIGXCPU: c_int = 24;
const SIGXFSZ: c_int = 25;
const SIG_DFL: usize = 0;
const SIG_IGN: usize = 1;
const SIG_BLOCK: c_int = 0;
const SIG_SETMASK: c_int = 2;

/// Those that end the program when someone sends them, and leave it time to clear up.
const ENDING: [c_int; 5] = [SIGHUP, SIGINT, SIGQUIT, SIGTERM, SIGXCPU];

/// The lock that is ours.
static LOCK: AtomicPtr<c_char> = AtomicPtr::new(null_mut());

/// Runs before `main`: the standard library aborts, too, if it finds no memory to begin with. Whoever started the program with a signal ignored, as nohup
/// does, keeps it ignored. Beyond a limit on a file's size a write is to fail like any other. An abort ends with exit status 2.
extern "C" fn set_up() {
    // SAFETY: the handlers are functions of the type that C asks for, and do only what a handler may.
    unsafe {
        for number in ENDING {
            if signal(number, end as *const () as usize) == SIG_IGN {
                signal(number, SIG_IGN);
            }
        }
        signal(SIGXFSZ, SIG_IGN);
        signal(SIGABRT, abort as *const () as usize);
    }
}

// SAFETY: the loader calls each function of this section once, before `main`, by C's calling convention.
#[used]
#[link_section = ".init_array"]
static SET_UP: extern "C" fn() = set_up;

extern "C" fn end(number: c_int) {
    take_away();
    // SAFETY: the signal waits until this handler returns, and then ends the program as it does one without a handler.
    unsafe {
        signal(number, SIG_DFL);
        raise(number);
    }
}

extern "C" fn abort(_: c_int) {
    const WORDS: &[u8] = b"packed-refs: the memory does not suffice, or the program has a defect: no answer. Do not send.\n";
    take_away();
    // SAFETY: the bytes are there for ever; what can't be written is said by the status.
    unsafe {
        write(2, WORDS.as_ptr(), WORDS.len());
        _exit(2);
    }
}

fn take_away() {
    let path = LOCK.swap(null_mut(), Ordering::AcqRel);
    if !path.is_null() {
        // SAFETY: a path in LOCK is a C string that is never freed.
        unsafe { unlink(path) };
    }
}

/// From now on a signal takes this file away. To be called while signals are held, and held since before the file was made.
pub fn lock_is(path: &Path) {
    // A path with NUL in it can't be opened.
    if let Ok(path) = CString::new(path.as_os_str().as_bytes()) {
        LOCK.store(path.into_raw(), Ordering::Release);
    }
}

/// From now on no more. To be called while signals are held, and held since before the file went: a lock of that name may by now be another program's.
pub fn lock_is_no_more() {
    LOCK.store(null_mut(), Ordering::Release);
}

/// While this lives, the signals that end the program wait. A thread that is started meanwhile never gets them.
pub struct Held(SignalSet);

pub fn hold() -> Held {
    let (mut set, mut old) = ([0; 16], [0; 16]);
    // SAFETY: both sets are as large as C's, and the mask is this thread's alone.
    unsafe {
        sigemptyset(&mut set);
        for number in ENDING {
            sigaddset(&mut set, number);
        }
        pthread_sigmask(SIG_BLOCK, &set, &mut old);
    }
    Held(old)
}

impl Held {
    /// Lets those in that came meanwhile.
    pub fn let_in(&mut self) {
        self.release();
        // What this one remembers is what the mask was before it, as ever.
        std::mem::forget(hold());
    }

    fn release(&self) {
        // SAFETY: as above; the mask becomes what it was.
        unsafe { pthread_sigmask(SIG_SETMASK, &self.0, null_mut()) };
    }
}

impl Drop for Held {
    fn drop(&mut self) {
        self.release();
    }
}
