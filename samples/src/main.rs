//! Runs seeded samples through the engine and through the second program, and compares answers and every byte; then through the engine's
//! book and strip. A difference is made small, written to `target/differences`, and ends the program with status 1.

use samples::calls::{calls_of, runs_of};
use samples::shrink::{smallest, Check};
use samples::summary::Summary;
use samples::{agreement, report, sides};
use second::samples::calls::Call;
use std::ops::Range;
use std::path::Path;
use std::time::{Duration, Instant};

/// The seeds of the usual run.
const USUAL: Range<u64> = 1..50_001;
/// How often the progress is shown.
const PROGRESS: Duration = Duration::from_secs(5);

/// The seeds to go through: the usual ones, so many after them, or a single one.
fn seeds() -> Option<Range<u64>> {
    let words: Vec<String> = std::env::args().skip(1).collect();
    let words: Vec<&str> = words.iter().map(String::as_str).collect();
    match words.as_slice() {
        [] => Some(USUAL),
        ["--more", count] => Some(USUAL.end..USUAL.end + count.parse::<u64>().ok()?),
        ["--seed", seed] => seed.parse().ok().map(|seed| seed..seed + 1),
        _ => None,
    }
}

fn main() {
    let Some(seeds) = seeds() else {
        eprintln!("usage: samples [--more SEEDS | --seed SEED]");
        std::process::exit(2);
    };
    let (began, mut shown) = (Instant::now(), Instant::now());
    let mut summary = Summary::default();
    for seed in seeds.clone() {
        compare(seed, &mut summary);
        if shown.elapsed() > PROGRESS {
            shown = Instant::now();
            eprintln!(
                "  {} of {} seeds, {} calls",
                seed - seeds.start,
                seeds.end - seeds.start,
                summary.total()
            );
        }
    }
    println!(
        "{} calls compared in {} ms, all alike",
        summary.total(),
        began.elapsed().as_millis()
    );
    print!("{}", summary.lines());
    let missing = summary.missing();
    if seeds == USUAL && !missing.is_empty() {
        println!("no sample was answered with the numbers {missing:?}");
        std::process::exit(1);
    }
}

/// Compares all that a seed stands for.
fn compare(seed: u64, summary: &mut Summary) {
    let calls = calls_of(seed);
    for call in &calls {
        let said = [sides::engine(call), sides::second(call)];
        if said[0] != said[1] {
            tell(seed, call.clone(), sides::difference);
        }
        summary.count(call.entry, &said[1].answer);
    }
    for run in runs_of(&calls) {
        if agreement::difference(&run).is_some() {
            tell(seed, run, agreement::difference);
        }
        summary.agreements += 1;
    }
}

/// Makes a difference small, writes it down, shows it and ends the program.
fn tell(seed: u64, call: Call, check: Check) -> ! {
    let least = smallest(call, check);
    let difference = check(&least).expect("the smallest call differs");
    let folder = Path::new("target/differences").join(format!("seed-{seed}-{:?}", least.entry));
    match report::write(&folder, &least, &difference) {
        Ok(page) => print!("seed {seed}, files in {}\n{page}", folder.display()),
        Err(error) => println!(
            "seed {seed}: a difference, but {} can't be written: {error}",
            folder.display()
        ),
    }
    std::process::exit(1);
}
