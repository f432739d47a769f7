//! Times every case for each program, in turn, and prints the tables.

mod date;
mod timing;

use bench::case_files::{longest_strip, Files};
use bench::cases::{Case, Unit, CASES};
use bench::programs::{Program, ENGINE, PROGRAMS, TUNED};
use bench::tuned::run_strip_counting;
use bench::tuned::tally::Count;
use llwybrenu::Answer;
use samples::longest::{book_of_longest_board, longest_board, longest_book};
use second::sizes::{LONGEST_BOARD, LONGEST_BOOK, LONGEST_STRIP};
use timing::{time, Pace, Times};

/// An allowance that no attempt uses up.
const ALLOWANCE: u64 = u64::MAX;

/// A call that each program makes.
type Call = Box<dyn Fn(&Program, &mut [u8]) -> Answer>;

/// One thing that is timed: a call that each program makes, and what its cost is divided by.
struct Line {
    name: &'static str,
    entry: &'static str,
    rows: usize,
    unit: &'static str,
    units: f64,
    call: Call,
}

fn main() {
    let flags: Vec<String> = std::env::args().skip(1).collect();
    let flags: Vec<&str> = flags.iter().map(String::as_str).collect();
    match flags.as_slice() {
        [] => print_tables(&Pace::full()),
        ["--quick"] => print_tables(&Pace::quick()),
        ["--others"] => print_for_others(&Pace::quick()),
        _ => {
            eprintln!("usage: bench [--quick | --others]");
            std::process::exit(2);
        }
    }
}

fn print_tables(pace: &Pace) {
    let programs = PROGRAMS;
    let names: Vec<&str> = programs.iter().map(|program| program.name).collect();
    println!("{}, {}\n", date::today(), names.join(" and "));
    print_costs(&programs, pace);
    print_growth(&programs, pace);
}

/// For the script `others`: its names of three cases, each with µs a run of the engine's book and
/// strip and of the tuned book.
fn print_for_others(pace: &Pace) {
    let programs = [TUNED, ENGINE];
    let named = |name| CASES.iter().find(|case| case.name == name).expect("a case");
    for (short, name, limit) in [
        ("hat", "hat firings", 1_000),
        ("ring", "ring of 4, quiet", 1),
        ("one", "short attempts", 500),
    ] {
        let case = named(name);
        let lines = lines_within(case, case.rows, limit);
        let times = lines.map(|line| measure(&[&line], &programs, pace).remove(0));
        let [engine_book, engine_strip] = [&times[0][1], &times[1][1]];
        let all = [engine_book, engine_strip, &times[0][0]];
        let all = all.map(|times| format!("{:.0}", times.median / 1_000.0));
        println!("{short} {}", all.join(" "));
    }
}

// ---------------------------------------------------------------- what is timed

/// The two lines of a case at a number of rows: the book's run and the strip's.
fn lines(case: &Case, rows: usize) -> [Line; 2] {
    lines_within(case, rows, u16::MAX)
}

/// The same with at most so many firings.
fn lines_within(case: &Case, rows: usize, limit: u16) -> [Line; 2] {
    let files = || {
        let files = (case.files)(rows);
        let limit = files.limit.min(limit);
        Files { limit, ..files }
    };
    let (book_files, strip_files) = (files(), files());
    let (firings, count) = count(&book_files);
    let (unit, units) = match case.unit {
        Unit::Row => ("row", count.rows as f64),
        Unit::Firing => ("firing", f64::from(firings)),
    };
    let book = Line {
        name: case.name,
        entry: "book",
        rows,
        unit,
        units,
        call: Box::new(move |program, out| {
            let files = &book_files;
            (program.run_book)(&files.book, &files.board, files.limit, out)
        }),
    };
    let strip = Line {
        name: case.name,
        entry: "strip",
        rows,
        unit: "step",
        units: count.steps as f64,
        call: Box::new(move |program, out| {
            let files = &strip_files;
            (program.run_strip)(&files.strip, &files.board, files.limit, ALLOWANCE, out)
        }),
    };
    [book, strip]
}

/// The firings of a case's run, and the steps and rows of its strip.
fn count(files: &Files) -> (u16, Count) {
    let mut count = Count::default();
    let mut out = vec![0; LONGEST_BOARD];
    let (strip, board) = (&files.strip, &files.board);
    let answer = run_strip_counting(strip, board, files.limit, ALLOWANCE, &mut out, &mut count);
    (answer.firings, count)
}

/// The lines of reading and translating the longest files.
fn reading_lines() -> Vec<Line> {
    let book = longest_book();
    let board = longest_board();
    let strip = longest_strip();
    let lengths = [book.len(), board.len(), strip.len()];
    assert_eq!(lengths, [LONGEST_BOOK, LONGEST_BOARD, LONGEST_STRIP]);
    let kinds = book_of_longest_board();
    let line = |name, entry, bytes: usize, call| Line {
        name,
        entry,
        rows: 0,
        unit: "byte",
        units: bytes as f64,
        call,
    };
    let same_book = book.clone();
    vec![
        line(
            "reading the longest",
            "book",
            lengths[0],
            Box::new(move |program, _| (program.check_book)(&book)),
        ),
        line(
            "reading the longest",
            "board",
            lengths[1],
            Box::new(move |program, _| (program.check_board)(&kinds, &board)),
        ),
        line(
            "reading the longest",
            "strip",
            lengths[2],
            Box::new(move |program, _| (program.check_strip)(&strip)),
        ),
        line(
            "translating the longest",
            "book",
            lengths[0],
            Box::new(move |program, out| (program.translate)(&same_book, out)),
        ),
    ]
}

/// Panics unless all programs give the same answer and bytes.
fn compare(line: &Line, programs: &[Program]) {
    let made: Vec<(Answer, Vec<u8>)> = programs
        .iter()
        .map(|program| {
            let mut out = vec![0xA5; LONGEST_STRIP];
            ((line.call)(program, &mut out), out)
        })
        .collect();
    for (program, other) in programs.iter().zip(&made) {
        let name = program.name;
        let case = (line.name, line.entry, line.rows);
        assert_eq!(other.0, made[0].0, "answer of {name} in {case:?}");
        assert!(other.1 == made[0].1, "output of {name} in {case:?}");
    }
}

/// Compares the programs' answers, then times them, all lines in the same rounds; gives for each
/// line the programs' times.
fn measure(lines: &[&Line], programs: &[Program], pace: &Pace) -> Vec<Vec<Times>> {
    lines.iter().for_each(|line| compare(line, programs));
    let mut out = vec![0; LONGEST_STRIP];
    let mut times = time(pace, lines.len() * programs.len(), |turn| {
        let (line, program) = (turn / programs.len(), turn % programs.len());
        std::hint::black_box((lines[line].call)(&programs[program], &mut out));
    });
    let mut by_line = Vec::new();
    for _ in lines {
        by_line.push(times.drain(..programs.len()).collect());
    }
    by_line
}

// ---------------------------------------------------------------- the tables

/// The table of costs at the number of rows that each case is named for.
fn print_costs(programs: &[Program], pace: &Pace) {
    let mut head = String::from("| case | entry | rows | units | tuned, ns a run |");
    let mut rule = String::from("|---|---|--:|--:|--:|");
    for (number, program) in programs.iter().enumerate() {
        let name = program.name;
        head += &format!(" {name}, ns a unit |");
        rule += "--:|";
        if number > 0 {
            head += &format!(" {name} / tuned |");
            rule += "--:|";
        }
    }
    let place = |name| programs.iter().position(|program| program.name == name);
    let engine_and_usual = place("engine").zip(place("usual"));
    if engine_and_usual.is_some() {
        head += " engine / usual |";
        rule += "--:|";
    }
    println!("{head}\n{rule}");
    let cases = CASES.iter().flat_map(|case| lines(case, case.rows));
    for line in cases.chain(reading_lines()) {
        let times = measure(&[&line], programs, pace).remove(0);
        let rows = match line.rows {
            0 => String::new(),
            rows => rows.to_string(),
        };
        print!(
            "| {} | {} | {rows} | {} {}s | {:.0} |",
            line.name, line.entry, line.units, line.unit, times[0].median
        );
        for (number, times) in times.iter().enumerate() {
            print!(" {} |", short(times.median / line.units));
            if number > 0 {
                print!(" {:.2} |", times.ratio);
            }
        }
        if let Some((engine, usual)) = engine_and_usual {
            print!(" {:.2} |", times[engine].ratio / times[usual].ratio);
        }
        println!();
    }
}

/// The table of how cost grows with the number of rows.
fn print_growth(programs: &[Program], pace: &Pace) {
    println!("\nGrowth: ns a unit at an eighth, a quarter, a half and all of the rows; then how many times");
    println!("as many units and as much time the last takes as the first.\n");
    println!("| case | entry | rows | program | 1/8 | 1/4 | 1/2 | 1 | units | time |");
    println!("|---|---|--:|---|--:|--:|--:|--:|--:|--:|");
    for case in &CASES {
        let sizes: Vec<[Line; 2]> = case.sizes.iter().map(|rows| lines(case, *rows)).collect();
        for entry in 0..2 {
            let lines: Vec<&Line> = sizes.iter().map(|lines| &lines[entry]).collect();
            let times = measure(&lines, programs, pace);
            for (number, program) in programs.iter().enumerate() {
                let (name, entry, rows) = (case.name, lines[0].entry, case.sizes[3]);
                print!("| {name} | {entry} | {rows} | {} |", program.name);
                for (line, times) in lines.iter().zip(&times) {
                    print!(" {} |", short(times[number].median / line.units));
                }
                println!(
                    " {:.1} | {:.1} |",
                    lines[3].units / lines[0].units,
                    times[3][number].ratio / times[0][number].ratio
                );
            }
        }
    }
}

/// A number with three or so figures.
fn short(number: f64) -> String {
    match number {
        number if number < 10.0 => format!("{number:.2}"),
        number if number < 100.0 => format!("{number:.1}"),
        number => format!("{number:.0}"),
    }
}
