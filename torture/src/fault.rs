//! What is said if the engine makes a fault: the call that it was in.

use crate::system::{_exit, sigaction, Action, ON_OTHER_STACK};
use samples::report::describe;
use second::samples::calls::Call;
use std::ptr::null_mut;
use std::sync::atomic::{AtomicPtr, Ordering};

/// The call that is being made.
static CURRENT: AtomicPtr<Call> = AtomicPtr::new(null_mut());

/// SIGILL, SIGABRT, SIGBUS, SIGFPE, SIGSEGV.
const FAULTS: [i32; 5] = [4, 6, 7, 8, 11];

/// Remembers the call that is made next.
pub fn about_to(call: &Call) {
    CURRENT.store(call as *const Call as *mut Call, Ordering::Relaxed);
}

/// Shows the current call on every fault, and ends the program with status 3.
pub fn watch() {
    let action = Action {
        handler: tell,
        mask: [0; 16],
        flags: ON_OTHER_STACK,
        restorer: 0,
    };
    for fault in FAULTS {
        let failed = unsafe { sigaction(fault, &action, null_mut()) };
        assert_eq!(failed, 0, "the system takes a handler");
    }
}

/// Printing in a handler is sound here: the engine neither prints nor asks for memory, so it holds no lock when it is interrupted.
extern "C" fn tell(signal: i32) {
    match unsafe { CURRENT.load(Ordering::Relaxed).as_ref() } {
        None => eprintln!("fault {signal} outside of every call"),
        Some(call) => eprint!("fault {signal} in {}", describe(call)),
    }
    unsafe { _exit(3) }
}
