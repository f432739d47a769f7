//! All six entries on a small stack: how much each takes, and that so much is enough.

use crate::guarded::Guarded;
use crate::stack::Stack;
use crate::tell;
use samples::calls::ENTRIES;
use second::samples::calls::Call;

/// The stack that docs/TERMINALS.md names, in bytes.
const NAMED: usize = 16 * 1024;
/// A stack on which everything surely fits, to measure on.
const AMPLE: usize = 1024 * 1024;
/// Stacks are made of so many bytes at a time.
const GRAIN: usize = 16;

/// Measures on an ample stack, then makes the same calls on one of just so many bytes with a forbidden page under it.
pub fn group<I: Iterator<Item = Call>>(pages: &mut Guarded, calls: impl Fn() -> I) {
    let before = pages.calls();
    let mut least = 0;
    for entry in ENTRIES {
        let mut stack = Stack::new(AMPLE);
        run_on(
            &mut stack,
            pages,
            calls().filter(|call| call.entry == entry),
        );
        println!("  stack of {entry:?}: {} bytes", stack.used());
        least = least.max(stack.used().next_multiple_of(GRAIN));
    }
    run_on(&mut Stack::new(least), pages, calls());
    println!(
        "  least stack for all six: {least} bytes, {} of them this program's own; named: {NAMED}",
        own()
    );
    println!("  small stack: {} calls", pages.calls() - before);
    if least > NAMED {
        println!("that is more than the stack that docs/TERMINALS.md names");
        std::process::exit(1);
    }
}

fn run_on(stack: &mut Stack, pages: &mut Guarded, calls: impl Iterator<Item = Call>) {
    for call in calls {
        if let Some(difference) = pages.try_call(&call, &mut |job| stack.run(job)) {
            tell(&call, &difference);
        }
    }
}

/// What this program takes of a stack before it calls the engine.
fn own() -> usize {
    let mut stack = Stack::new(AMPLE);
    stack.run(&mut || {});
    stack.used()
}
