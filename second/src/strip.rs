//! The strip: its thirteen words, the reader, which gives STRIP at the lowest faulty word, and the
//! writer.
//!
//! Word of 8 bytes: code, a, b, c, value (2), target (2), low byte first.
//!
//! | code | word | fields |
//! |---|---|---|
//! | 0 | KIND | a class, b arity |
//! | 1 | OPEN | a cursor |
//! | 2 | SEEK | a cursor, b kind, target |
//! | 3 | BIND | a cursor, b argument, c register |
//! | 4 | SAME | a cursor, b argument, c register, target |
//! | 5 | LIT | a cursor, b argument, value, target |
//! | 6 | TEST | a test and tags, b c left, value right, target |
//! | 7 | KEEP | |
//! | 8 | PUT | a kind |
//! | 9 | ARG | a position, b tag, value |
//! | 10 | JUMP | target |
//! | 11 | FIRE | a rule |
//! | 12 | QUIET | |

use crate::book::{Class, Comparison, Kind, Term, Test};
use crate::numbers::{File, Refusal, Refused};
use crate::sizes::*;

/// A word of a strip.
#[derive(Clone, Copy, Debug, PartialEq, Eq)]
pub enum Word {
    Kind(Kind),
    Open {
        cursor: u8,
    },
    Seek {
        cursor: u8,
        kind: u8,
        target: u16,
    },
    Bind {
        cursor: u8,
        argument: u8,
        register: u8,
    },
    Same {
        cursor: u8,
        argument: u8,
        register: u8,
        target: u16,
    },
    Lit {
        cursor: u8,
        argument: u8,
        value: u16,
        target: u16,
    },
    Test {
        test: Test,
        target: u16,
    },
    Keep,
    Put {
        kind: u8,
    },
    Arg {
        position: u8,
        term: Term,
    },
    Jump {
        target: u16,
    },
    Fire {
        rule: u8,
    },
    Quiet,
}

/// A strip: its kinds, and all its words, the KINDs among them.
#[derive(Clone, Debug, Default, PartialEq, Eq)]
pub struct Strip {
    pub kinds: Vec<Kind>,
    pub words: Vec<Word>,
}

/// A word's fields before any of them is judged.
struct Fields {
    code: u8,
    a: u8,
    b: u8,
    c: u8,
    value: u16,
    target: u16,
}

// ---------------------------------------------------------------- reading

/// Reads a strip, or gives STRIP at the lowest faulty word.
pub fn read_strip(bytes: &[u8]) -> Result<Strip, Refused> {
    let length = bytes.len();
    if length == 0 || length > LONGEST_STRIP || !length.is_multiple_of(WORD_BYTES) {
        return Err(refuse(0));
    }
    let words = length / WORD_BYTES;
    let mut strip = Strip::default();
    for (number, bytes) in bytes.chunks(WORD_BYTES).enumerate() {
        let word = Fields::of(bytes).judge(&strip.kinds, words);
        let word = word.ok_or(refuse(number))?;
        if let Word::Kind(kind) = word {
            if strip.kinds.len() != number || strip.kinds.len() == KINDS {
                return Err(refuse(number));
            }
            strip.kinds.push(kind);
        }
        let may_be_last = matches!(word, Word::Jump { .. } | Word::Fire { .. } | Word::Quiet);
        if number + 1 == words && !may_be_last {
            return Err(refuse(number));
        }
        strip.words.push(word);
    }
    Ok(strip)
}

/// STRIP at a word.
fn refuse(place: usize) -> Refused {
    Refused {
        refusal: Refusal::Strip,
        file: File::Strip,
        place,
    }
}

impl Fields {
    /// The fields of a word's 8 bytes.
    fn of(word: &[u8]) -> Fields {
        Fields {
            code: word[0],
            a: word[1],
            b: word[2],
            c: word[3],
            value: u16::from_le_bytes([word[4], word[5]]),
            target: u16::from_le_bytes([word[6], word[7]]),
        }
    }

    /// The word, if its code is known, its fields are in range and its unused bytes are zero.
    fn judge(&self, kinds: &[Kind], words: usize) -> Option<Word> {
        if !self.unused_are_zero() {
            return None;
        }
        match self.code {
            0 => self.judge_kind(),
            1 => self.a_cursor().then_some(Word::Open { cursor: self.a }),
            2 => self.judge_seek(kinds, words),
            3 => self.judge_bind(),
            4 => self.judge_same(words),
            5 => self.judge_lit(words),
            6 => self.judge_test(words),
            7 => Some(Word::Keep),
            8 => (usize::from(self.a) < kinds.len()).then_some(Word::Put { kind: self.a }),
            9 => self.judge_arg(),
            10 => self.judge_jump(words),
            11 => (usize::from(self.a) < RULES).then_some(Word::Fire { rule: self.a }),
            12 => Some(Word::Quiet),
            _ => None,
        }
    }

    /// Whether the fields that the code doesn't use are zero.
    fn unused_are_zero(&self) -> bool {
        let used = match self.code {
            0 => [true, true, false, false, false],
            1 => [true, false, false, false, false],
            2 => [true, true, false, false, true],
            3 => [true, true, true, false, false],
            4 => [true, true, true, false, true],
            5 => [true, true, false, true, true],
            6 => [true, true, true, true, true],
            7 => [false, false, false, false, false],
            8 => [true, false, false, false, false],
            9 => [true, true, false, true, false],
            10 => [false, false, false, false, true],
            11 => [true, false, false, false, false],
            _ => [false, false, false, false, false],
        };
        let fields = [
            u16::from(self.a),
            u16::from(self.b),
            u16::from(self.c),
            self.value,
            self.target,
        ];
        fields
            .iter()
            .zip(used)
            .all(|(field, used)| used || *field == 0)
    }

    /// KIND: class 0 to 1, arity 0 to 4.
    fn judge_kind(&self) -> Option<Word> {
        let class = Class::from_number(self.a)?;
        let arity = self.b;
        (usize::from(arity) <= NUMBERS).then_some(Word::Kind(Kind { class, arity }))
    }

    /// SEEK: cursor, declared kind, target.
    fn judge_seek(&self, kinds: &[Kind], words: usize) -> Option<Word> {
        let declared = usize::from(self.b) < kinds.len();
        let sound = self.a_cursor() && declared && self.target_within(words);
        sound.then_some(Word::Seek {
            cursor: self.a,
            kind: self.b,
            target: self.target,
        })
    }

    /// BIND: cursor, argument, register.
    fn judge_bind(&self) -> Option<Word> {
        let sound = self.a_cursor() && self.b_argument() && self.c_register();
        sound.then_some(Word::Bind {
            cursor: self.a,
            argument: self.b,
            register: self.c,
        })
    }

    /// SAME: cursor, argument, register, target.
    fn judge_same(&self, words: usize) -> Option<Word> {
        let sound =
            self.a_cursor() && self.b_argument() && self.c_register() && self.target_within(words);
        sound.then_some(Word::Same {
            cursor: self.a,
            argument: self.b,
            register: self.c,
            target: self.target,
        })
    }

    /// LIT: cursor, argument, target; any value.
    fn judge_lit(&self, words: usize) -> Option<Word> {
        let sound = self.a_cursor() && self.b_argument() && self.target_within(words);
        sound.then_some(Word::Lit {
            cursor: self.a,
            argument: self.b,
            value: self.value,
            target: self.target,
        })
    }

    /// TEST: code a to 15, both terms, target.
    fn judge_test(&self, words: usize) -> Option<Word> {
        let comparison = Comparison::from_number(self.a / 4)?;
        let left = term(self.a / 2 % 2, u16::from_le_bytes([self.b, self.c]))?;
        let right = term(self.a % 2, self.value)?;
        let test = Test {
            comparison,
            left,
            right,
        };
        self.target_within(words).then_some(Word::Test {
            test,
            target: self.target,
        })
    }

    /// ARG: position and term.
    fn judge_arg(&self) -> Option<Word> {
        let term = term(self.b, self.value)?;
        let position = self.a;
        (usize::from(position) < NUMBERS).then_some(Word::Arg { position, term })
    }

    /// JUMP: target.
    fn judge_jump(&self, words: usize) -> Option<Word> {
        let target = self.target;
        self.target_within(words).then_some(Word::Jump { target })
    }

    /// Whether a is a cursor's number.
    fn a_cursor(&self) -> bool {
        usize::from(self.a) < CURSORS
    }

    /// Whether b is an argument's number.
    fn b_argument(&self) -> bool {
        usize::from(self.b) < NUMBERS
    }

    /// Whether c is a register's number.
    fn c_register(&self) -> bool {
        usize::from(self.c) < REGISTERS
    }

    /// Whether the target is one of the strip's words.
    fn target_within(&self, words: usize) -> bool {
        usize::from(self.target) < words
    }
}

/// The term of a tag and value, if the tag is one and a variable is in range.
fn term(tag: u8, value: u16) -> Option<Term> {
    match tag {
        0 => Some(Term::Constant(value)),
        1 if usize::from(value) < VARIABLES => Some(Term::Variable(value)),
        _ => None,
    }
}

// ---------------------------------------------------------------- writing

/// The strip's bytes.
pub fn write_strip(words: &[Word]) -> Vec<u8> {
    words.iter().flat_map(|word| write_word(*word)).collect()
}

/// A word's 8 bytes.
pub fn write_word(word: Word) -> [u8; WORD_BYTES] {
    match word {
        Word::Kind(kind) => bytes(0, [kind.class as u8, kind.arity, 0], 0, 0),
        Word::Open { cursor } => bytes(1, [cursor, 0, 0], 0, 0),
        Word::Seek {
            cursor,
            kind,
            target,
        } => bytes(2, [cursor, kind, 0], 0, target),
        Word::Bind {
            cursor,
            argument,
            register,
        } => bytes(3, [cursor, argument, register], 0, 0),
        Word::Same {
            cursor,
            argument,
            register,
            target,
        } => bytes(4, [cursor, argument, register], 0, target),
        Word::Lit {
            cursor,
            argument,
            value,
            target,
        } => bytes(5, [cursor, argument, 0], value, target),
        Word::Test { test, target } => write_test(test, target),
        Word::Keep => bytes(7, [0, 0, 0], 0, 0),
        Word::Put { kind } => bytes(8, [kind, 0, 0], 0, 0),
        Word::Arg { position, term } => bytes(9, [position, tag(term), 0], operand(term), 0),
        Word::Jump { target } => bytes(10, [0, 0, 0], 0, target),
        Word::Fire { rule } => bytes(11, [rule, 0, 0], 0, 0),
        Word::Quiet => bytes(12, [0, 0, 0], 0, 0),
    }
}

/// TEST's 8 bytes.
fn write_test(test: Test, target: u16) -> [u8; WORD_BYTES] {
    let a = 4 * test.comparison as u8 + 2 * tag(test.left) + tag(test.right);
    let [b, c] = operand(test.left).to_le_bytes();
    bytes(6, [a, b, c], operand(test.right), target)
}

/// The 8 bytes of these fields.
fn bytes(code: u8, abc: [u8; 3], value: u16, target: u16) -> [u8; WORD_BYTES] {
    let value = value.to_le_bytes();
    let target = target.to_le_bytes();
    let [a, b, c] = abc;
    [code, a, b, c, value[0], value[1], target[0], target[1]]
}

/// A term's tag.
fn tag(term: Term) -> u8 {
    match term {
        Term::Constant(_) => 0,
        Term::Variable(_) => 1,
    }
}

/// A term's value, or its variable's number.
fn operand(term: Term) -> u16 {
    match term {
        Term::Constant(value) => value,
        Term::Variable(variable) => variable,
    }
}
