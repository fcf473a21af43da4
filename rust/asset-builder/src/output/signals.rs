//! Signals: a run that is ended leaves no part of a file behind.

use signal_hook::consts::{SIGHUP, SIGINT, SIGTERM, SIGXFSZ};
use signal_hook::iterator::Signals;
use signal_hook::low_level::emulate_default_handler;
use std::collections::BTreeSet;
use std::fs;
use std::io;
use std::path::{Path, PathBuf};
use std::sync::atomic::AtomicBool;
use std::sync::{Arc, Mutex, MutexGuard, PoisonError};
use std::thread;

/// The files that have a name only until they are whole.
static PARTS: Mutex<BTreeSet<PathBuf>> = Mutex::new(BTreeSet::new());

/// What the first signal does in place of ending the run.
static AT_END: Mutex<Option<Box<dyn Fn() + Send>>> = Mutex::new(None);

/// From now on the first signal that would end the run does this instead, and the next ends it.
pub fn end_by(action: impl Fn() + Send + 'static) {
    let mut at_end = AT_END.lock().unwrap_or_else(PoisonError::into_inner);
    *at_end = Some(Box::new(action));
}

/// The names of parts. No signal ends the run while they are held.
pub struct Parts(MutexGuard<'static, BTreeSet<PathBuf>>);

/// Holds the names of parts.
pub fn parts() -> Parts {
    Parts(PARTS.lock().unwrap_or_else(PoisonError::into_inner))
}

impl Parts {
    pub fn add(&mut self, part: &Path) {
        self.0.insert(part.to_path_buf());
    }

    /// The part is no longer there, or it is whole.
    pub fn forget(&mut self, part: &Path) {
        self.0.remove(part);
    }
}

/// Removes parts when a signal ends the run, and lets a write past the limit of a file's size fail instead.
pub fn watch() -> io::Result<()> {
    let ignored = ignored_signals();
    let heard = |signal: &i32| ignored & (1 << (signal - 1)) == 0;
    if heard(&SIGXFSZ) {
        // Whoever handles the signal gets an error from the write, which is reported as any other.
        signal_hook::flag::register(SIGXFSZ, Arc::new(AtomicBool::new(false)))?;
    }
    let ending = [SIGINT, SIGTERM, SIGHUP];
    let mut signals = Signals::new(ending.iter().filter(|signal| heard(signal)))?;
    thread::spawn(move || {
        for signal in signals.forever() {
            let action = AT_END.lock().unwrap_or_else(PoisonError::into_inner).take();
            if let Some(action) = action {
                action();
                continue;
            }
            let Parts(names) = parts();
            for name in names.iter() {
                // What cannot be removed stays.
                let _ = fs::remove_file(name);
            }
            // The names are held to the end, so no part is made any more.
            let _ = emulate_default_handler(signal);
        }
    });
    Ok(())
}

/// A bit for each signal that whoever started the command wants to be ignored, as `nohup` does.
fn ignored_signals() -> u64 {
    let status = fs::read_to_string("/proc/self/status").unwrap_or_default();
    let mask = status.lines().find_map(|line| line.strip_prefix("SigIgn:"));
    mask.and_then(|it| u64::from_str_radix(it.trim(), 16).ok())
        .unwrap_or(0)
}
