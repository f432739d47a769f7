//! Tortures the engine: torn, changed and noisy files, outputs of every length, buffers that end at forbidden pages, a small stack. Every
//! answer and byte is compared with the second program's. Ends with status 1 on a difference, 3 on a fault.

mod fault;
mod files;
mod guarded;
mod pages;
mod small_stack;
mod stack;
mod system;
mod trials;

use files::Files;
use guarded::Guarded;
use samples::report;
use samples::sides::Difference;
use second::samples::calls::Call;
use std::path::Path;
use std::time::Instant;

/// Examples with all single-byte changes; those of the others are too many.
const CHANGED: [&str; 3] = ["hat", "tidy", "two_starts"];

fn main() {
    fault::watch();
    let began = Instant::now();
    let examples =
        files::examples(Path::new("examples")).expect("the folder examples, as seen from here");
    let longest = files::longest();
    let mut pages = Guarded::new();
    let chosen: Vec<&Files> = examples
        .iter()
        .filter(|files| CHANGED.contains(&files.name.as_str()))
        .collect();
    group(
        "every cut of every example",
        &mut pages,
        examples.iter().flat_map(trials::cuts),
    );
    group(
        "every cut of the longest files",
        &mut pages,
        longest.iter().flat_map(trials::checked_cuts),
    );
    group(
        "every change of a byte",
        &mut pages,
        chosen.iter().flat_map(|files| trials::changes(files)),
    );
    group("noise", &mut pages, (0..40_000).flat_map(trials::noise));
    group(
        "outputs of every length",
        &mut pages,
        examples.iter().chain(&longest).flat_map(trials::lengths),
    );
    group("samples", &mut pages, (0..3_000).flat_map(trials::samples));
    small_stack::group(&mut pages, || {
        let whole = examples.iter().chain(&longest).flat_map(trials::whole);
        whole.chain((0..2_000).flat_map(trials::samples))
    });
    println!(
        "{} calls in {} ms: no difference, no fault",
        pages.calls(),
        began.elapsed().as_millis()
    );
}

/// Makes the calls of a group and says how many they were.
fn group(name: &str, pages: &mut Guarded, calls: impl Iterator<Item = Call>) {
    let before = pages.calls();
    for call in calls {
        if let Some(difference) = pages.try_call(&call, &mut |job| job()) {
            tell(&call, &difference);
        }
    }
    println!("  {name}: {} calls", pages.calls() - before);
}

/// Writes a difference down, shows it and ends the program.
fn tell(call: &Call, difference: &Difference) -> ! {
    let folder = Path::new("target/differences/torture");
    match report::write(folder, call, difference) {
        Ok(page) => print!("a difference, files in {}\n{page}", folder.display()),
        Err(error) => println!(
            "a difference, but {} can't be written: {error}",
            folder.display()
        ),
    }
    std::process::exit(1);
}
