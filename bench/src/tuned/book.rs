//! The rule book in flat arrays, built record by record.

use super::atoms::*;
use super::read_book::Pages;
use super::sizes::*;

/// A rule's own part or a sweep, as ranges of the book's arrays.
#[derive(Clone, Copy, Default)]
pub struct Part {
    pub atoms: (u16, u16),
    pub heads: (u16, u16),
    /// The tests that need no atom of this part, and the constants of all its tests.
    before: (u16, u16),
    constants: (u16, u16),
    /// One bit for each kind of the body.
    pub needs: u64,
    /// The first card atom, or the last atom if there is none: where a sweep goes on.
    pub back: u8,
}

/// A rule.
#[derive(Clone, Copy, Default)]
pub struct Rule {
    pub own: Part,
    pub sweeps: [Part; SWEEPS as usize],
    pub sweep_count: u8,
}

/// A book in flat arrays.
pub struct Book {
    pub rules: Vec<Rule>,
    pub atoms: Vec<Atom>,
    tests: Vec<Test>,
    pub heads: Vec<Head>,
    constants: Vec<u16>,
    // Of the part being read: the part, whether it is a sweep, where its tests start, its first
    // card atom, and for each variable after how many atoms it is bound, if it is.
    part: Part,
    is_sweep: bool,
    first_test: usize,
    first_card: Option<u8>,
    home: [Option<u8>; VARIABLES as usize],
    outer: [Option<u8>; VARIABLES as usize],
}

impl Book {
    /// A book without rules.
    pub fn new() -> Book {
        Book {
            rules: Vec::with_capacity(4),
            atoms: Vec::with_capacity(16),
            tests: Vec::with_capacity(8),
            heads: Vec::with_capacity(16),
            constants: Vec::with_capacity(16),
            part: Part::default(),
            is_sweep: false,
            first_test: 0,
            first_card: None,
            home: [None; VARIABLES as usize],
            outer: [None; VARIABLES as usize],
        }
    }

    /// Opens a part at the ends of the arrays.
    fn open(&mut self) {
        let atoms = self.atoms.len() as u16;
        let heads = self.heads.len() as u16;
        self.part = Part {
            atoms: (atoms, atoms),
            heads: (heads, heads),
            constants: (self.constants.len() as u16, 0),
            ..Part::default()
        };
        self.first_test = self.tests.len();
        self.first_card = None;
    }

    /// Closes the open part: its tests go to the atoms after which they can be made.
    fn close(&mut self) {
        let Some(rule) = self.rules.last_mut() else {
            return;
        };
        let part = &mut self.part;
        part.atoms.1 = self.atoms.len() as u16;
        part.heads.1 = self.heads.len() as u16;
        part.constants.1 = self.constants.len() as u16;
        let first_test = self.first_test as u16;
        let tests = &mut self.tests[self.first_test..];
        tests.sort_by_key(|test| test.depth);
        let of_depth = |depth: u8| tests.iter().filter(move |test| test.depth == depth);
        part.before = (first_test, first_test + of_depth(0).count() as u16);
        let atoms = &mut self.atoms[usize::from(part.atoms.0)..];
        for (number, atom) in atoms.iter_mut().enumerate() {
            for test in of_depth(number as u8 + 1) {
                atom.tests[usize::from(atom.test_count)] = *test;
                atom.test_count += 1;
            }
        }
        part.back = self.first_card.unwrap_or(atoms.len() as u8 - 1);
        if self.is_sweep {
            rule.sweeps[usize::from(rule.sweep_count)] = *part;
            rule.sweep_count += 1;
        } else {
            rule.own = *part;
        }
    }

    /// The place of a test's term in the values, and after how many atoms it is known.
    fn place(&mut self, term: &[u8]) -> (u8, u8) {
        let value = u16::from_le_bytes([term[1], term[2]]);
        if term[0] == 1 {
            let home = self.home[usize::from(value)].expect("a bound variable");
            return (value as u8, home);
        }
        self.constants.push(value);
        let number = self.constants.len() - 1 - usize::from(self.part.constants.0);
        ((FIRST_CONSTANT + number) as u8, 0)
    }

    /// Puts the constants of a part's tests into their places, and tells whether those tests hold
    /// that need no atom of it.
    #[inline(always)]
    pub fn begin(&self, part: &Part, values: &mut Values) -> bool {
        let (start, end) = part.constants;
        let constants = &self.constants[usize::from(start)..usize::from(end)];
        for (place, constant) in values[FIRST_CONSTANT..].iter_mut().zip(constants) {
            *place = *constant;
        }
        let before = &self.tests[usize::from(part.before.0)..usize::from(part.before.1)];
        before.iter().all(|test| test.holds(values))
    }
}

impl Default for Book {
    fn default() -> Book {
        Book::new()
    }
}

impl Pages for Book {
    fn rule(&mut self) {
        self.close();
        self.open();
        self.is_sweep = false;
        self.home = [None; VARIABLES as usize];
        self.rules.push(Rule::default());
    }

    fn sweep(&mut self) {
        self.close();
        self.open();
        if !self.is_sweep {
            self.outer = self.home.map(|home| home.map(|_| 0));
        }
        self.is_sweep = true;
        self.home = self.outer;
    }

    #[inline]
    fn body(&mut self, card: bool, kind: u8, terms: &[u8]) {
        let number = (self.atoms.len() - usize::from(self.part.atoms.0)) as u8;
        self.part.needs |= 1 << kind;
        if card && self.first_card.is_none() {
            self.first_card = Some(number);
        }
        let mut atom = Atom {
            kind,
            card,
            pairs: 0,
            pair: [(0, 0); 3],
            fresh_count: 0,
            fresh: [(0, 0); 4],
            known: [NOWHERE; 4],
            variables: 0,
            constants: 0,
            mask: 0,
            test_count: 0,
            tests: [Test::default(); RULE_GROUP as usize],
        };
        for (argument, term) in terms.chunks_exact(3).enumerate() {
            let value = u16::from_le_bytes([term[1], term[2]]);
            let shift = 16 * argument;
            if term[0] == 0 {
                atom.constants |= u64::from(value) << shift;
                atom.mask |= 0xFFFF << shift;
                continue;
            }
            match self.home[usize::from(value)] {
                None => {
                    self.home[usize::from(value)] = Some(number + 1);
                    atom.fresh[usize::from(atom.fresh_count)] = (shift as u8, value as u8);
                    atom.fresh_count += 1;
                }
                Some(home) if home == number + 1 => {
                    let fresh = &atom.fresh[..usize::from(atom.fresh_count)];
                    let first = fresh.iter().find(|fresh| fresh.1 == value as u8);
                    let (first, _) = *first.expect("bound by this atom");
                    atom.pair[usize::from(atom.pairs)] = (first, shift as u8);
                    atom.pairs += 1;
                }
                Some(_) => {
                    atom.known[argument] = value as u8;
                    atom.variables |= 0xFFFF << shift;
                    atom.mask |= 0xFFFF << shift;
                }
            }
        }
        self.atoms.push(atom);
    }

    fn test(&mut self, number: u8, terms: &[u8]) {
        let (left, left_depth) = self.place(&terms[..3]);
        let (right, right_depth) = self.place(&terms[3..]);
        let holds_if = [0b010, 0b101, 0b001, 0b011];
        self.tests.push(Test {
            left,
            right,
            holds_if: holds_if[usize::from(number)],
            depth: left_depth.max(right_depth),
        });
    }

    #[inline]
    fn head(&mut self, card: bool, kind: u8, terms: &[u8]) {
        let mut head = Head {
            kind,
            card,
            variable: [NOWHERE; 4],
            variables: 0,
            constants: 0,
        };
        for (argument, term) in terms.chunks_exact(3).enumerate() {
            let value = u16::from_le_bytes([term[1], term[2]]);
            if term[0] == 0 {
                head.constants |= u64::from(value) << (16 * argument);
            } else {
                head.variable[argument] = value as u8;
                head.variables |= 0xFFFF << (16 * argument);
            }
        }
        self.heads.push(head);
    }

    fn end(&mut self) {
        self.close();
    }
}
