//! A call made by the engine and by the second program, with canaries around and inside the output.

use llwybrenu::Answer;
use second::samples::calls::{Call, Entry};

/// Bytes before and after each lent buffer that nobody may touch.
const MARGIN: usize = 32;

/// What a side says to a call: the answer, the output with its margins, and whether the files were left as they were.
#[derive(Clone, Debug, PartialEq, Eq)]
pub struct Said {
    pub answer: Answer,
    pub out: Vec<u8>,
    pub files_kept: bool,
}

/// Two sides that ought to say the same, and don't.
pub struct Difference {
    pub names: [&'static str; 2],
    pub said: [Said; 2],
}

/// A buffer in the middle of its margins.
struct Lent(Vec<u8>);

impl Lent {
    /// An output of canaries. Each byte is made from its place, so that one written to another's place shows too.
    fn output(room: usize) -> Lent {
        Lent(
            (0..room + 2 * MARGIN)
                .map(|i| (i * 167 % 251) as u8)
                .collect(),
        )
    }

    /// A file between canaries.
    fn file(bytes: &[u8]) -> Lent {
        let mut lent = Lent::output(bytes.len());
        lent.middle().copy_from_slice(bytes);
        lent
    }

    fn middle(&mut self) -> &mut [u8] {
        let end = self.0.len() - MARGIN;
        &mut self.0[MARGIN..end]
    }
}

/// The engine's answer to a call, on these bytes.
pub fn ask_engine(call: &Call, source: &[u8], board: &[u8], out: &mut [u8]) -> Answer {
    match call.entry {
        Entry::CheckBook => llwybrenu::check_book(source),
        Entry::CheckBoard => llwybrenu::check_board(source, board),
        Entry::CheckStrip => llwybrenu::check_strip(source),
        Entry::Translate => llwybrenu::translate(source, out),
        Entry::RunBook => llwybrenu::run_book(source, board, call.limit, out),
        Entry::RunStrip => llwybrenu::run_strip(source, board, call.limit, call.allowance, out),
    }
}

/// The engine's side of a call.
pub fn engine(call: &Call) -> Said {
    let mut files = [Lent::file(&call.source), Lent::file(&call.board)];
    let mut out = Lent::output(call.room);
    let [source, board] = files.each_mut().map(|file| &*file.middle());
    let answer = ask_engine(call, source, board, out.middle());
    let files_kept =
        files[0].0 == Lent::file(&call.source).0 && files[1].0 == Lent::file(&call.board).0;
    Said {
        answer,
        out: out.0,
        files_kept,
    }
}

/// The second program's side of a call.
pub fn second(call: &Call) -> Said {
    let mut out = Lent::output(call.room);
    let answer = told(call.answer(out.middle()));
    Said {
        answer,
        out: out.0,
        files_kept: true,
    }
}

/// The second program's answer in the engine's terms.
pub fn told(answer: second::numbers::Answer) -> Answer {
    Answer {
        number: answer.number,
        file: answer.file,
        rule: answer.rule,
        firings: answer.firings,
        place: answer.place,
        length: answer.length,
    }
}

/// Where the engine and the second program differ on a call.
pub fn difference(call: &Call) -> Option<Difference> {
    let said = [engine(call), second(call)];
    (said[0] != said[1]).then_some(Difference {
        names: ["engine", "second"],
        said,
    })
}
