//! Ctrl-C and the like: the standard library has nothing for them, so that C's `signal` is called, here and nowhere else.
use std::sync::atomic::{AtomicI32, Ordering};

/// The signal that came, 0 for none.
static CAME: AtomicI32 = AtomicI32::new(0);

const HANGUP: i32 = 1;
const INTERRUPT: i32 = 2;
const TERMINATE: i32 = 15;
/// A file that would grow over this user's limit: ignored, so that the write fails with a sentence in place of the program.
const FILE_SIZE: i32 = if cfg!(any(target_os = "linux", target_os = "macos")) { 25 } else { 0 };

const DEFAULT: usize = 0;
const IGNORE: usize = 1;

extern "C" {
    fn signal(number: i32, handler: usize) -> usize;
}

/// Runs between any two instructions, and so does no more than C allows there: an atomic is set, and the same signal a second time
/// ends the program at once.
extern "C" fn note(number: i32) {
    CAME.store(number, Ordering::SeqCst);
    // SAFETY: `signal` may be called in a handler, and DEFAULT is one of its two constants.
    unsafe { signal(number, DEFAULT) };
}

/// From here on a signal is noted.
pub fn listen() {
    let handler = note as extern "C" fn(i32) as usize;
    for number in [HANGUP, INTERRUPT, TERMINATE] {
        // SAFETY: the handler is a function of the type that C asks for, and lives as long as the program.
        let before = unsafe { signal(number, handler) };
        // under nohup a terminal that is closed must not stop the day
        if number == HANGUP && before == IGNORE {
            // SAFETY: IGNORE is one of the two constants of `signal`.
            unsafe { signal(number, IGNORE) };
        }
    }
    if FILE_SIZE != 0 {
        // SAFETY: IGNORE is one of the two constants of `signal`.
        unsafe { signal(FILE_SIZE, IGNORE) };
    }
}

/// The signal that came, if any did.
pub fn came() -> Option<u8> {
    match CAME.load(Ordering::SeqCst) {
        0 => None,
        number => Some(number as u8),
    }
}
