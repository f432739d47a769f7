//! A stack of any size with a forbidden page under it, painted so that what was touched can be seen.

use crate::pages::Pages;
use crate::system::{getcontext, makecontext, swapcontext, Context};
use std::cell::Cell;
use std::ptr::null_mut;

/// The paint: a byte that is unlikely to be left on the lowest place of a frame.
const PAINT: u8 = 0xC5;

/// What is done on the stack.
type Job<'a> = &'a mut dyn FnMut();

thread_local! {
    /// The job that the stack begins with: a C function without parameters has no other way to get it.
    static JOB: Cell<*mut Job<'static>> = const { Cell::new(null_mut()) };
}

/// A stack, painted.
pub struct Stack {
    pages: Pages,
    size: usize,
}

impl Stack {
    /// A stack of exactly so many bytes.
    pub fn new(size: usize) -> Stack {
        let mut pages = Pages::new(size);
        pages.bytes().fill(PAINT);
        Stack { pages, size }
    }

    /// Does a job on the stack and comes back.
    pub fn run(&mut self, mut job: Job) {
        let (mut here, mut there) = (empty_context(), empty_context());
        JOB.set((&mut job as *mut Job).cast());
        unsafe {
            getcontext(&mut *there);
            there.then = &mut *here;
            there.stack = self.pages.bytes().as_mut_ptr();
            there.stack_size = self.size;
            makecontext(&mut *there, begin, 0);
            swapcontext(&mut *here, &*there);
        }
    }

    /// How many bytes, from the top, have been touched so far.
    pub fn used(&mut self) -> usize {
        let size = self.size;
        let touched = self.pages.bytes()[..size]
            .iter()
            .position(|byte| *byte != PAINT);
        touched.map_or(0, |lowest| size - lowest)
    }
}

/// Does the job; the context then goes on where it was begun.
extern "C" fn begin() {
    unsafe { (*JOB.get())() }
}

fn empty_context() -> Box<Context> {
    Box::new(Context {
        flags: 0,
        then: null_mut(),
        stack: null_mut(),
        stack_flags: 0,
        stack_size: 0,
        rest: [0; 1024],
    })
}
