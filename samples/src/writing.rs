//! Books and boards being written, record by record.

/// The test 'less'.
pub const LESS: u8 = 2;

/// A term: a variable or a constant.
#[derive(Clone, Copy)]
pub enum Term {
    V(u16),
    C(u16),
}
use Term::{C, V};

/// A book being written.
#[derive(Default)]
pub struct Book {
    bytes: Vec<u8>,
    kinds: u8,
}

impl Book {
    /// Declares a kind of cards and gives its number.
    pub fn card(&mut self, arity: u8) -> u8 {
        self.kind(0, arity)
    }

    /// Declares a kind of notices and gives its number.
    pub fn notice(&mut self, arity: u8) -> u8 {
        self.kind(1, arity)
    }

    fn kind(&mut self, class: u8, arity: u8) -> u8 {
        self.bytes.extend([b'k', b'd', class, arity]);
        self.kinds += 1;
        self.kinds - 1
    }

    pub fn rule(&mut self) {
        self.bytes.extend(b"ru");
    }

    pub fn sweep(&mut self) {
        self.bytes.extend(b"sw");
    }

    pub fn body(&mut self, kind: u8, terms: &[Term]) {
        self.record(b"ba", kind, terms);
    }

    pub fn test(&mut self, number: u8, left: Term, right: Term) {
        self.record(b"te", number, &[left, right]);
    }

    pub fn head(&mut self, kind: u8, terms: &[Term]) {
        self.record(b"he", kind, terms);
    }

    fn record(&mut self, mark: &[u8; 2], number: u8, terms: &[Term]) {
        self.bytes.extend(mark);
        self.bytes.push(number);
        for term in terms {
            let (tag, value) = match term {
                C(value) => (0, value),
                V(variable) => (1, variable),
            };
            self.bytes.push(tag);
            self.bytes.extend(value.to_le_bytes());
        }
    }

    pub fn finish(mut self) -> Vec<u8> {
        self.bytes.extend(b"en");
        self.bytes
    }
}

/// A board being written; all cards come before the first notice.
#[derive(Default)]
pub struct Board(Vec<u8>);

impl Board {
    pub fn card(&mut self, kind: u8, numbers: &[u16]) {
        self.record(b"ca", kind, numbers);
    }

    pub fn notice(&mut self, kind: u8, numbers: &[u16]) {
        self.record(b"no", kind, numbers);
    }

    fn record(&mut self, mark: &[u8; 2], kind: u8, numbers: &[u16]) {
        self.0.extend(mark);
        self.0.push(kind);
        let bytes = numbers.iter().flat_map(|number| number.to_le_bytes());
        self.0.extend(bytes);
    }

    pub fn finish(mut self) -> Vec<u8> {
        self.0.extend(b"en");
        self.0
    }
}
