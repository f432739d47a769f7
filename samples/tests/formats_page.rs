//! docs/FORMATS.md says what the engine says: the hat's files byte by byte, and the worked answers.

use llwybrenu::Answer;
use samples::agreement::translated;

/// The kinds that the page's boards are of.
const BOOK_OF_BOARDS: &[u8] = b"kd\x00\x01kd\x01\x00en";

fn read(name: &str) -> Vec<u8> {
    std::fs::read(format!("{}/../{name}", env!("CARGO_MANIFEST_DIR"))).expect(name)
}

fn page() -> String {
    String::from_utf8(read("docs/FORMATS.md")).expect("a page of text")
}

/// The bytes at the front of a line, up to what is no byte in hexadecimal.
fn bytes(line: &str) -> Vec<u8> {
    let words = line.split(' ').map(|word| match word.len() {
        2 => u8::from_str_radix(word, 16).ok(),
        _ => None,
    });
    words.map_while(|byte| byte).collect()
}

/// The bytes of the listing under a heading.
fn listing(heading: &str) -> Vec<u8> {
    let page = page();
    let rest = page.split(heading).nth(1).expect(heading);
    let listing = rest.split("```").nth(1).expect("a listing");
    listing.lines().flat_map(bytes).collect()
}

#[test]
fn the_hats_files() {
    let book = read("examples/hat/book");
    assert_eq!(listing("### The hat book"), book);
    assert_eq!(listing("### The hat board"), read("examples/hat/board"));
    assert_eq!(Some(listing("### The hat strip")), translated(&book));
}

/// The engine's words for a file of the table.
fn answer(file: &str, bytes: &[u8]) -> String {
    let answer: Answer = match file {
        "book" => llwybrenu::check_book(bytes),
        "board" => llwybrenu::check_board(BOOK_OF_BOARDS, bytes),
        _ => llwybrenu::check_strip(bytes),
    };
    match answer.is_accepted() {
        true => "accepted".into(),
        false => format!("{} {}", answer.name(), answer.place),
    }
}

#[test]
fn worked_answers() {
    let page = page();
    let table = page.split("### Worked answers").nth(1).expect("the table");
    let mut rows = 0;
    for line in table.lines() {
        let cells: Vec<&str> = line.split('|').map(str::trim).collect();
        if let [_, file @ ("book" | "board" | "strip"), shown, expected, _] = cells[..] {
            assert_eq!(
                answer(file, &bytes(shown.trim_matches('`'))),
                expected,
                "{line}"
            );
            rows += 1;
        }
    }
    assert_eq!(rows, 30);
}
