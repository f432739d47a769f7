//! Translation of an accepted book, record by record; not tuned.

use super::board::Kinds;
use super::sizes::*;
use super::strip::Code;

/// The word number that stands for the way out of a part until it is known.
const WAY_OUT: u16 = u16::MAX;

/// The strip being written, and what the open part needs to know.
struct Tape<'a> {
    out: &'a mut [u8],
    kinds: &'a Kinds,
    words: u16,
    /// The first word and first cursor of the open part, whether its KEEP is written.
    start: u16,
    cursor: u8,
    kept: bool,
    /// The first SEEK of the rule's own body, the last SEEK written, where a sweep goes on.
    rule_start: u16,
    seek: u16,
    again: Option<u16>,
    bound: u16,
    outer: u16,
}

impl Tape<'_> {
    fn word(&mut self, code: Code, abc: [u8; 3], value: u16, target: u16) {
        let at = usize::from(self.words) * WORD_BYTES;
        let word = &mut self.out[at..at + WORD_BYTES];
        word[0] = code as u8;
        word[1..4].copy_from_slice(&abc);
        word[4..6].copy_from_slice(&value.to_le_bytes());
        word[6..].copy_from_slice(&target.to_le_bytes());
        self.words += 1;
    }

    /// Opens a part whose cursors start there.
    fn open(&mut self, cursor: u8) {
        self.start = self.words;
        self.cursor = cursor;
        self.kept = false;
        self.seek = WAY_OUT;
        self.again = None;
    }

    /// Writes KEEP once, before the heads or at the part's end.
    fn keep(&mut self) {
        if !self.kept {
            self.kept = true;
            self.word(Code::Keep, [0; 3], 0, 0);
        }
    }

    /// Ends the open part; a sweep with JUMP, after which its way out is known.
    fn close(&mut self, is_sweep: bool) {
        self.keep();
        if is_sweep {
            let again = self.again.unwrap_or(self.seek);
            self.word(Code::Jump, [0; 3], 0, again);
            self.set_target(self.start + 1);
        }
    }

    /// Makes the next word's number the target of that SEEK.
    fn set_target(&mut self, seek: u16) {
        let at = usize::from(seek) * WORD_BYTES + 6;
        self.out[at..at + 2].copy_from_slice(&self.words.to_le_bytes());
    }

    fn body(&mut self, kind: u8, terms: &[u8]) {
        let cursor = self.cursor;
        self.cursor += 1;
        self.word(Code::Open, [cursor, 0, 0], 0, 0);
        let target = self.seek;
        self.seek = self.words;
        if self.kinds.is_card(kind) {
            self.again = self.again.or(Some(self.seek));
        }
        self.word(Code::Seek, [cursor, kind, 0], 0, target);
        for (argument, term) in terms.chunks_exact(3).enumerate() {
            let argument = argument as u8;
            let value = u16::from_le_bytes([term[1], term[2]]);
            let register = term[1];
            if term[0] == 0 {
                self.word(Code::Lit, [cursor, argument, 0], value, self.seek);
            } else if self.bound >> value & 1 == 1 {
                self.word(Code::Same, [cursor, argument, register], 0, self.seek);
            } else {
                self.bound |= 1 << value;
                self.word(Code::Bind, [cursor, argument, register], 0, 0);
            }
        }
    }

    fn head(&mut self, kind: u8, terms: &[u8]) {
        self.keep();
        self.word(Code::Put, [kind, 0, 0], 0, 0);
        for (position, term) in terms.chunks_exact(3).enumerate() {
            let value = u16::from_le_bytes([term[1], term[2]]);
            self.word(Code::Arg, [position as u8, term[0], 0], value, 0);
        }
    }
}

/// Writes the strip of an accepted book of these kinds and gives its length.
pub fn translate(kinds: &Kinds, book: &[u8], out: &mut [u8]) -> usize {
    let mut tape = Tape {
        out,
        kinds,
        words: 0,
        start: 0,
        cursor: 0,
        kept: false,
        rule_start: 0,
        seek: WAY_OUT,
        again: None,
        bound: 0,
        outer: 0,
    };
    let mut rule: Option<u8> = None;
    let mut sweeps = 0;
    let mut at = 0;
    loop {
        let atom = |at: usize| {
            let kind = book[at + 2];
            let length = 3 * usize::from(kinds.arity[usize::from(kind)]);
            (kind, &book[at + 3..at + 3 + length])
        };
        match &book[at..at + 2] {
            b"kd" => {
                tape.word(Code::Kind, [book[at + 2], book[at + 3], 0], 0, 0);
                at += 4;
            }
            b"ba" => {
                let (kind, terms) = atom(at);
                tape.body(kind, terms);
                at += 3 + terms.len();
            }
            b"te" => {
                let [tag, low, high, right] =
                    [book[at + 3], book[at + 4], book[at + 5], book[at + 6]];
                let value = u16::from_le_bytes([book[at + 7], book[at + 8]]);
                let seek = tape.seek;
                tape.word(
                    Code::Test,
                    [4 * book[at + 2] + 2 * tag + right, low, high],
                    value,
                    seek,
                );
                at += 9;
            }
            b"he" => {
                let (kind, terms) = atom(at);
                tape.head(kind, terms);
                at += 3 + terms.len();
            }
            b"sw" => {
                tape.close(sweeps > 0);
                if sweeps == 0 {
                    tape.outer = tape.bound;
                }
                tape.bound = tape.outer;
                tape.open(6 + 4 * sweeps);
                sweeps += 1;
                at += 2;
            }
            mark => {
                if let Some(rule) = rule {
                    tape.close(sweeps > 0);
                    tape.word(Code::Fire, [rule, 0, 0], 0, 0);
                    tape.set_target(tape.rule_start + 1);
                }
                if mark == b"en" {
                    break;
                }
                rule = Some(rule.map_or(0, |rule| rule + 1));
                sweeps = 0;
                tape.bound = 0;
                tape.rule_start = tape.words;
                tape.open(0);
                at += 2;
            }
        }
    }
    tape.word(Code::Quiet, [0; 3], 0, 0);
    usize::from(tape.words) * WORD_BYTES
}
