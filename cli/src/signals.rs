//! What the system tells a process: that it is to end (Ctrl-C, a station's service manager), and which of its standard
//! descriptors were closed when it started. The standard library has neither; the C library, which it is linked with, has.
use crate::error::Error;
use std::io;
use std::sync::atomic::{AtomicBool, AtomicI32, Ordering};

/// The signals that ask a process to end, and the number of "bad file descriptor".
const HANG_UP: i32 = 1;
const INTERRUPT: i32 = 2;
const TERMINATE: i32 = 15;
const BAD_DESCRIPTOR: i32 = 9;

/// What a signal does if nobody handles it; how to ask for a descriptor's flags.
const DEFAULT: usize = 0;
const GET_FLAGS: i32 = 1;

const STANDARD_OUTPUT: i32 = 1;

/// The signal that came, or 0, and how many came; so many are only kept.
static SIGNAL: AtomicI32 = AtomicI32::new(0);
static SIGNAL_COUNT: AtomicI32 = AtomicI32::new(0);
const PATIENCE: i32 = 2;

/// Was standard output closed before the standard library put /dev/null in its place?
static STDOUT_CLOSED: AtomicBool = AtomicBool::new(false);

extern "C" {
    fn signal(number: i32, handler: usize) -> usize;
    fn siginterrupt(number: i32, flag: i32) -> i32;
    fn raise(number: i32) -> i32;
    fn fcntl(descriptor: i32, command: i32) -> i32;
}

/// Runs before `main`.
#[used]
#[link_section = ".init_array"]
static AT_START: extern "C" fn() = at_start;

extern "C" fn at_start() {
    // SAFETY: fcntl with this command only asks.
    STDOUT_CLOSED.store(unsafe { fcntl(STANDARD_OUTPUT, GET_FLAGS) } < 0, Ordering::Relaxed);
}

/// Keeps a signal; the third one ends the process at once. Two may come for one: `timeout` sends to the process and to its
/// group.
extern "C" fn handle(number: i32) {
    SIGNAL.store(number, Ordering::Relaxed);
    if SIGNAL_COUNT.fetch_add(1, Ordering::Relaxed) >= PATIENCE {
        // SAFETY: both may be called in a handler.
        unsafe {
            signal(number, DEFAULT);
            raise(number);
        }
    }
}

/// From now on a signal to end is kept, so that what was decoded can be written; a read that waits fails with it.
pub fn install_handlers() {
    for number in [HANG_UP, INTERRUPT, TERMINATE] {
        // SAFETY: the handler does only what a handler may. A signal that our caller ignores stays ignored.
        unsafe {
            if signal(number, handle as extern "C" fn(i32) as usize) == IGNORE {
                signal(number, IGNORE);
            }
            siginterrupt(number, 1);
        }
    }
}

/// What `signal` says of a signal that is ignored, as under `nohup`.
const IGNORE: usize = 1;

/// Did a signal to end come?
pub fn pending() -> bool {
    SIGNAL.load(Ordering::Relaxed) != 0
}

/// Ends the process by the signal that came, as its sender expects; if none came, nothing.
pub fn reraise() {
    let number = SIGNAL.load(Ordering::Relaxed);
    if number != 0 {
        // SAFETY: the default of these signals is to end the process.
        unsafe {
            signal(number, DEFAULT);
            raise(number);
        }
    }
}

/// Standard output must have been there from the start: else what is written to it would be lost, and nobody told.
pub fn check_stdout(name: &str) -> Result<(), Error> {
    if STDOUT_CLOSED.load(Ordering::Relaxed) {
        return Err(Error::Failed(name.into(), io::Error::from_raw_os_error(BAD_DESCRIPTOR)));
    }
    Ok(())
}
