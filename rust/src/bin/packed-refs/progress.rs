//! What takes over two seconds says on a terminal how far it is.
use crate::signals;
use std::io::{self, IsTerminal, Write};
use std::sync::atomic::{AtomicUsize, Ordering};
use std::sync::mpsc::{channel, RecvTimeoutError, Sender};
use std::sync::Arc;
use std::thread::JoinHandle;
use std::time::{Duration, Instant};

/// Shown after two seconds and until it is dropped; then the line is cleared.
pub struct Progress {
    far: Arc<Far>,
    shower: Option<(Sender<()>, JoinHandle<()>)>,
}

/// How far it is: so many parts are done, of so many where that is known.
struct Far {
    done: AtomicUsize,
    total: AtomicUsize,
}

impl Progress {
    /// Of something with so many parts, or of something whose parts can't be seen.
    pub fn new(what: String, total: Option<usize>) -> Progress {
        Progress::shown_if(io::stderr().is_terminal(), what, total)
    }

    /// Of something that writes to standard output all the time: on a terminal that is to be seen itself.
    pub fn beside_output(what: String, total: usize) -> Progress {
        Progress::shown_if(io::stderr().is_terminal() && !io::stdout().is_terminal(), what, Some(total))
    }

    fn shown_if(is_seen: bool, what: String, total: Option<usize>) -> Progress {
        let far = Arc::new(Far { done: AtomicUsize::new(0), total: AtomicUsize::new(total.unwrap_or(0)) });
        let shower = is_seen.then(|| start(what, far.clone())).flatten();
        Progress { far, shower }
    }

    /// So many parts are done.
    pub fn at(&self, done: usize) {
        self.far.done.store(done, Ordering::Relaxed);
    }

    /// The same, of so many where that is only known by now.
    pub fn at_of(&self, done: u64, total: Option<u64>) {
        self.far.total.store(total.unwrap_or(0) as usize, Ordering::Relaxed);
        self.at(done as usize);
    }
}

impl Drop for Progress {
    fn drop(&mut self) {
        if let Some((stop, thread)) = self.shower.take() {
            drop(stop);
            let _ = thread.join();
        }
    }
}

/// A thread that shows it. Without one the work goes on unseen.
fn start(what: String, far: Arc<Far>) -> Option<(Sender<()>, JoinHandle<()>)> {
    let (stop, stopped) = channel();
    let begun = Instant::now();
    let show = move || {
        let mut wait = Duration::from_secs(2);
        let mut is_shown = false;
        while let Err(RecvTimeoutError::Timeout) = stopped.recv_timeout(wait) {
            let (done, total) = (far.done.load(Ordering::Relaxed), far.total.load(Ordering::Relaxed));
            let share = match (done, total) {
                (0, 0) => String::new(),
                (done, 0) => format!(", {done} so far"),
                (done, total) => format!(", {} %", done.min(total) * 100 / total),
            };
            let _ = write!(io::stderr(), "\rpacked-refs: {what}{share}, {} s\x1b[K", begun.elapsed().as_secs());
            is_shown = true;
            wait = Duration::from_millis(500);
        }
        if is_shown {
            let _ = write!(io::stderr(), "\r\x1b[K");
        }
    };
    // Signals are for the thread that knows of the lock.
    let _held = signals::hold();
    let thread = std::thread::Builder::new().spawn(show).ok()?;
    Some((stop, thread))
}
