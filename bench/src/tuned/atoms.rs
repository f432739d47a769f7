//! Body atoms, tests and heads as the search works on them: patterns, masks and places of values.

use super::sizes::*;

/// Values of the variables from 0, room that nobody reads, and from 16 the constants of the tests
/// of the part at hand, so that a test compares two places.
pub type Values = [u16; 32];
pub(super) const FIRST_CONSTANT: usize = 16;
/// The place in the values for an argument that binds no variable.
pub(super) const NOWHERE: u8 = 15;

/// A body atom, with its arguments sorted by what is to be done with them.
pub struct Atom {
    pub kind: u8,
    pub card: bool,
    /// How many pairs of arguments have one variable that first occurs here.
    pub(super) pairs: u8,
    pub(super) pair: [(u8, u8); 3],
    /// The arguments that bind a variable: how far the number stands to the left, and which.
    pub(super) fresh_count: u8,
    pub(super) fresh: [(u8, u8); 4],
    /// The variable bound before that each argument must equal.
    pub(super) known: [u8; 4],
    /// The bits of the arguments with a known variable, and the constants in place.
    pub(super) variables: u64,
    pub(super) constants: u64,
    /// The bits of all arguments that are compared.
    pub mask: u64,
    /// The tests made here.
    pub(super) test_count: u8,
    pub(super) tests: [Test; RULE_GROUP as usize],
}

impl Atom {
    /// What a row's numbers must be in the compared bits.
    #[inline(always)]
    pub fn pattern(&self, values: &Values) -> u64 {
        let value = |argument: usize| u64::from(values[usize::from(self.known[argument]) % 32]);
        let known = value(0) | value(1) << 16 | value(2) << 32 | value(3) << 48;
        known & self.variables | self.constants
    }

    /// Binds the row's numbers, and tells whether its repeated variables and its tests hold.
    #[inline(always)]
    pub fn accepts(&self, numbers: u64, values: &mut Values) -> bool {
        for (shift, variable) in &self.fresh[..usize::from(self.fresh_count)] {
            values[usize::from(*variable) % 32] = (numbers >> (shift & 63)) as u16;
        }
        for (first, later) in &self.pair[..usize::from(self.pairs)] {
            if (numbers >> (first & 63)) as u16 != (numbers >> (later & 63)) as u16 {
                return false;
            }
        }
        let tests = &self.tests[..usize::from(self.test_count)];
        tests.iter().all(|test| test.holds(values))
    }
}

/// A test of two places of the values.
#[derive(Clone, Copy, Default)]
pub struct Test {
    pub(super) left: u8,
    pub(super) right: u8,
    /// One bit for each outcome with which it holds: less, equal, greater.
    pub(super) holds_if: u8,
    /// The number of body atoms after which it can be made.
    pub(super) depth: u8,
}

impl Test {
    /// Whether the test holds.
    #[inline(always)]
    pub(super) fn holds(&self, values: &Values) -> bool {
        let left = values[usize::from(self.left) % 32];
        let right = values[usize::from(self.right) % 32];
        let outcome = u32::from(left >= right) + u32::from(left > right);
        self.holds_if >> outcome & 1 == 1
    }
}

/// A head atom.
pub struct Head {
    pub kind: u8,
    pub card: bool,
    pub(super) variable: [u8; 4],
    pub(super) variables: u64,
    pub(super) constants: u64,
}

impl Head {
    /// The made fact's numbers.
    #[inline(always)]
    pub fn numbers(&self, values: &Values) -> u64 {
        let value = |argument: usize| u64::from(values[usize::from(self.variable[argument]) % 32]);
        let known = value(0) | value(1) << 16 | value(2) << 32 | value(3) << 48;
        known & self.variables | self.constants
    }
}
