//! Signals that end the viewer: what is done before one does; and whether a process is gone.

use std::ffi::c_int;
use std::{io, process, ptr, thread};

/// The signals that end a process which may still do something before, as Linux numbers them:
/// SIGHUP, SIGINT, SIGQUIT, SIGUSR1, SIGUSR2, SIGALRM, SIGTERM, those of other timers, SIGVTALRM
/// and SIGPROF, and for the limits of time and of a file's length SIGXCPU and SIGXFSZ.
const ENDING: [c_int; 11] = [1, 2, 3, 10, 12, 14, 15, 24, 25, 26, 27];
/// The action of a signal that is ignored.
const IGNORED: usize = 1;
/// What becomes of the signals of a set.
const BLOCK: c_int = 0;
const UNBLOCK: c_int = 1;
/// The error that tells that there is no such process.
const NO_PROCESS: i32 = 3;
/// What a shell adds to a signal's number to have an exit status.
const BY_SIGNAL: c_int = 128;

/// A set of signals, a bit each, as long as the C library has it.
#[repr(C)]
#[derive(Clone, Copy, Default)]
struct Signals([u64; 16]);

/// What a signal leads to, as the C library tells it.
#[repr(C)]
#[derive(Default)]
struct Action {
    action: usize,
    blocked: Signals,
    flags: c_int,
    restorer: usize,
}

extern "C" {
    /// The C library's calls for signals and for processes.
    fn sigaction(signal: c_int, new: *const Action, old: *mut Action) -> c_int;
    fn pthread_sigmask(how: c_int, signals: *const Signals, old: *mut Signals) -> c_int;
    fn sigwait(signals: *const Signals, signal: *mut c_int) -> c_int;
    fn raise(signal: c_int) -> c_int;
    fn kill(process: c_int, signal: c_int) -> c_int;
}

impl Signals {
    /// The set of these signals.
    fn of(signals: impl Iterator<Item = c_int>) -> Self {
        let mut set = Self::default();
        set.0[0] = signals.fold(0, |bits, signal| bits | 1 << (signal - 1));
        set
    }

    /// Blocks these signals in this thread and in those that it starts, or lets them come.
    fn mask(&self, how: c_int) {
        // SAFETY: the set lives through the call, and no old one is asked for.
        unsafe { pthread_sigmask(how, self, ptr::null_mut()) };
    }

    /// The next of these signals, which are blocked.
    fn next(&self) -> c_int {
        let mut signal = 0;
        // SAFETY: the set and the number live through the call.
        while unsafe { sigwait(self, &mut signal) } != 0 {}
        signal
    }
}

/// Whether a signal is ignored, as nohup has it.
fn is_ignored(signal: c_int) -> bool {
    let mut found = Action::default();
    // SAFETY: no new action is given, and the one that is written lives through the call.
    let answer = unsafe { sigaction(signal, ptr::null(), &mut found) };
    answer == 0 && found.action == IGNORED
}

/// Those signals that would end the viewer: neither ignored nor blocked.
fn ending() -> Signals {
    let mut blocked = Signals::default();
    // SAFETY: no set is given, and the one that is written lives through the call.
    unsafe { pthread_sigmask(BLOCK, ptr::null(), &mut blocked) };
    let mut signals = Signals::of(ENDING.into_iter().filter(|&signal| !is_ignored(signal)));
    signals.0[0] &= !blocked.0[0];
    signals
}

/// Ends the viewer by a signal, as if it had not been blocked.
fn end_by(signal: c_int) -> ! {
    Signals::of([signal].into_iter()).mask(UNBLOCK);
    // SAFETY: the call takes any number.
    unsafe { raise(signal) };
    // The first process of a container is not ended by its own signals.
    process::exit(BY_SIGNAL + signal)
}

/// Has something done before a signal ends the viewer, in a thread that waits for one. Signals
/// that are ignored or blocked stay so. Where no thread can be started, a signal ends the viewer
/// at once.
pub fn before_end(tidy: impl FnOnce() + Send + 'static) {
    let signals = ending();
    signals.mask(BLOCK);
    let waiting = move || {
        let signal = signals.next();
        tidy();
        end_by(signal)
    };
    if thread::Builder::new().spawn(waiting).is_err() {
        signals.mask(UNBLOCK);
    }
}

/// Whether there is no process of this number.
pub fn is_gone(process: c_int) -> bool {
    // SAFETY: signal 0 is sent to nothing; the call only tells whether there is such a process.
    let answer = unsafe { kill(process, 0) };
    answer != 0 && io::Error::last_os_error().raw_os_error() == Some(NO_PROCESS)
}

#[cfg(test)]
mod tests {
    use super::*;

    #[test]
    fn a_process_that_has_ended_is_gone() {
        let mut child = process::Command::new("cat")
            .stdin(process::Stdio::piped())
            .spawn()
            .unwrap();
        let number = c_int::try_from(child.id()).unwrap();
        assert!(!is_gone(number));
        child.wait().unwrap();
        assert!(is_gone(number));
        assert!(!is_gone(c_int::try_from(process::id()).unwrap()));
        assert!(!is_gone(1));
    }

    #[test]
    fn a_set_has_a_bit_for_each_signal() {
        let set = Signals::of([1, 2, 15, 64].into_iter());
        assert_eq!(set.0[0], 1 | 2 | 1 << 14 | 1 << 63);
        assert_eq!(set.0[1..], [0; 15]);
    }
}
