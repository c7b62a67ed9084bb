//! Work on two threads, and a line on a terminal that says how far it is.

use crate::colour::is_terminal;
use crate::printed::internal;
use std::io::Write;
use std::sync::atomic::{AtomicUsize, Ordering};
use std::sync::mpsc::{channel, RecvTimeoutError};
use std::thread;
use std::time::{Duration, Instant};

const THREADS: usize = 2;
/// The line is shown from this time on, and then brought up to date as often as `EVERY` says.
const AFTER: Duration = Duration::from_secs(1);
const EVERY: Duration = Duration::from_millis(200);

/// What `work` makes of each, in order. The line says `COMMAND: 12 of 40 UNITS, 3 s left`.
pub fn in_order<T: Sync, R: Send>(command: &str, units: &str, all: &[T], work: impl Fn(&T) -> R + Sync) -> Vec<R> {
    let next = AtomicUsize::new(0);
    let mut results: Vec<Option<R>> = all.iter().map(|_| None).collect();
    let mut line = Line { command, units, of: all.len(), started: Instant::now(), next: AFTER, shown: 0 };
    let (sender, receiver) = channel();
    thread::scope(|scope| {
        for _ in 0..THREADS.min(all.len()) {
            let (next, work, sender) = (&next, &work, sender.clone());
            scope.spawn(move || loop {
                let number = next.fetch_add(1, Ordering::Relaxed);
                match all.get(number).map(work) {
                    // sending fails only if nobody receives any more
                    Some(result) => drop(sender.send((number, result))),
                    None => return,
                }
            });
        }
        // what is left then are the threads' senders: receiving ends when they have ended
        drop(sender);
        let mut done = 0;
        loop {
            match receiver.recv_timeout(EVERY) {
                Ok((number, result)) => {
                    results[number] = Some(result);
                    done += 1;
                }
                Err(RecvTimeoutError::Timeout) => {}
                Err(RecvTimeoutError::Disconnected) => return,
            }
            line.show(done);
        }
    });
    line.clear();
    let lost = || internal("a result of two threads is lost");
    results.into_iter().map(|result| result.unwrap_or_else(lost)).collect()
}

struct Line<'a> {
    command: &'a str,
    units: &'a str,
    of: usize,
    started: Instant,
    /// When, after the start, it is shown next.
    next: Duration,
    /// How many characters stand on the terminal.
    shown: usize,
}

impl Line<'_> {
    /// Shows how many are done, where somebody sees it and waits for long.
    fn show(&mut self, done: usize) {
        let passed = self.started.elapsed();
        if passed < self.next || !is_terminal(2) {
            return;
        }
        self.next = passed + EVERY;
        let Line { command, units, of, shown, .. } = *self;
        let left = match done {
            0 => String::new(),
            _ => format!(", {:.0} s left", (passed.as_secs_f64() * (of - done) as f64 / done as f64).ceil()),
        };
        let words = format!("{command}: {done} of {of} {units}{left}");
        put(&format!("\r{words:<shown$}"));
        self.shown = words.chars().count();
    }

    fn clear(&self) {
        if self.shown > 0 {
            put(&format!("\r{:width$}\r", "", width = self.shown));
        }
    }
}

/// Writes on standard error at once. The line only says how long it takes, so it is no fault if it cannot be written.
fn put(words: &str) {
    let mut err = std::io::stderr();
    let _ = err.write_all(words.as_bytes()).and_then(|_| err.flush());
}
