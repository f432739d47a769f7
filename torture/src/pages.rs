//! Memory between two pages that may not be touched: a byte read or written outside ends the program.

use crate::system::{getpagesize, mmap, mprotect, ANONYMOUS, NOTHING, READ, WRITE};
use std::ops::Range;
use std::ptr::null_mut;

/// Which forbidden page a buffer touches.
#[derive(Clone, Copy, PartialEq, Eq)]
pub enum Edge {
    /// The buffer ends where the forbidden page begins.
    End,
    /// The buffer begins where the forbidden page ends.
    Start,
}

/// Pages that may be touched, between two that may not. They stay until the program ends.
pub struct Pages {
    start: *mut u8,
    length: usize,
}

impl Pages {
    /// At least so many bytes.
    pub fn new(bytes: usize) -> Pages {
        let page = unsafe { getpagesize() } as usize;
        let length = bytes.next_multiple_of(page);
        let all = unsafe { mmap(null_mut(), length + 2 * page, NOTHING, ANONYMOUS, -1, 0) };
        assert!(all as isize != -1, "the system gives memory");
        let mut pages = Pages {
            start: unsafe { all.add(page) },
            length,
        };
        pages.allow(READ | WRITE);
        pages
    }

    /// What may be done with the pages from now on.
    fn allow(&mut self, what: i32) {
        let failed = unsafe { mprotect(self.start, self.length, what) };
        assert_eq!(failed, 0, "the system changes what may be done with a page");
    }

    /// The place of a buffer of that length at the edge.
    pub fn place(&self, edge: Edge, length: usize) -> Range<usize> {
        match edge {
            Edge::End => self.length - length..self.length,
            Edge::Start => 0..length,
        }
    }

    /// How many bytes the pages have.
    pub fn length(&self) -> usize {
        self.length
    }

    /// All bytes of the pages.
    pub fn bytes(&mut self) -> &mut [u8] {
        unsafe { std::slice::from_raw_parts_mut(self.start, self.length) }
    }

    /// Puts a file at the edge, on pages that may then only be read; gives its bytes.
    pub fn lend(&mut self, edge: Edge, file: &[u8]) -> &[u8] {
        let place = self.place(edge, file.len());
        self.allow(READ | WRITE);
        self.bytes()[place.clone()].copy_from_slice(file);
        self.allow(READ);
        unsafe { std::slice::from_raw_parts(self.start.add(place.start), place.len()) }
    }
}
