//! Counting what a strip's run does.

/// Counts what a run does; `()` counts nothing.
pub trait Tally {
    fn step(&mut self);
    fn landed(&mut self);
}

impl Tally for () {
    #[inline(always)]
    fn step(&mut self) {}
    #[inline(always)]
    fn landed(&mut self) {}
}

/// The steps of a run, and the rows that SEEK landed on.
#[derive(Clone, Copy, Debug, Default)]
pub struct Count {
    pub steps: u64,
    pub rows: u64,
}

impl Tally for Count {
    fn step(&mut self) {
        self.steps += 1;
    }
    fn landed(&mut self) {
        self.rows += 1;
    }
}
