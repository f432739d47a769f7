//! The tuned implementation and the engine give the second program's answers and bytes on its
//! samples.

use bench::programs::{Program, PROGRAMS, SECOND};
use llwybrenu::Answer;
use second::samples::calls::{call, Call, Entry};

/// The answer and the output of a call, the output filled with a byte before.
fn made_by(program: &Program, call: &Call) -> (Answer, Vec<u8>) {
    let mut out = vec![0xA5; call.room];
    let source = &call.source;
    let answer = match call.entry {
        Entry::CheckBook => (program.check_book)(source),
        Entry::CheckBoard => (program.check_board)(source, &call.board),
        Entry::CheckStrip => (program.check_strip)(source),
        Entry::RunBook => (program.run_book)(source, &call.board, call.limit, &mut out),
        Entry::Translate => (program.translate)(source, &mut out),
        Entry::RunStrip => {
            (program.run_strip)(source, &call.board, call.limit, call.allowance, &mut out)
        }
    };
    (answer, out)
}

/// Compares the calls of these seeds.
fn compare(seeds: std::ops::Range<u64>) {
    for seed in seeds {
        let call = call(seed);
        let expected = made_by(&SECOND, &call);
        for program in PROGRAMS.iter().filter(|program| program.name != "second") {
            let made = made_by(program, &call);
            let what = (program.name, seed, call.entry);
            assert_eq!(made.0, expected.0, "answer of {what:?}");
            assert!(made.1 == expected.1, "output of {what:?}");
        }
    }
}

#[test]
fn first_samples() {
    compare(0..20_000);
}

#[test]
fn more_samples() {
    compare(1_000_000..1_020_000);
}
