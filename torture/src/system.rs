//! The calls of Linux and its C library that this program needs, as declared there.

/// Memory that may not be touched, may be read, may be written.
pub const NOTHING: i32 = 0;
pub const READ: i32 = 1;
pub const WRITE: i32 = 2;
/// Private memory that belongs to no file.
pub const ANONYMOUS: i32 = 0x22;

/// Handlers run on the stack set apart for them, since the usual one may be the one that is used up.
pub const ON_OTHER_STACK: i32 = 0x0800_0000;

/// What is done on a signal.
#[repr(C)]
pub struct Action {
    pub handler: extern "C" fn(i32),
    pub mask: [u64; 16],
    pub flags: i32,
    pub restorer: usize,
}

/// A place to go on from, on a stack of its own. Only the fields in front are ours; the rest is room for the C library.
#[repr(C, align(16))]
pub struct Context {
    pub flags: usize,
    pub then: *mut Context,
    pub stack: *mut u8,
    pub stack_flags: i32,
    pub stack_size: usize,
    pub rest: [usize; 1024],
}

extern "C" {
    pub fn getpagesize() -> i32;
    pub fn mmap(
        at: *mut u8,
        length: usize,
        may: i32,
        flags: i32,
        file: i32,
        offset: i64,
    ) -> *mut u8;
    pub fn mprotect(at: *mut u8, length: usize, may: i32) -> i32;
    pub fn sigaction(signal: i32, action: *const Action, before: *mut Action) -> i32;
    pub fn _exit(status: i32) -> !;
    pub fn getcontext(context: *mut Context) -> i32;
    pub fn makecontext(context: *mut Context, begin: extern "C" fn(), count: i32, ...);
    pub fn swapcontext(from: *mut Context, to: *const Context) -> i32;
}
