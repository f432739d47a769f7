//! A difference as files in a folder, for whoever looks into it.

use crate::sides::{Difference, Said};
use second::samples::calls::{Call, Entry};
use std::path::Path;
use std::{fs, io};

/// Writes the call's files, what each side left in the output, and a page that says the rest; gives that page.
pub fn write(folder: &Path, call: &Call, difference: &Difference) -> io::Result<String> {
    fs::create_dir_all(folder)?;
    let is_strip = matches!(call.entry, Entry::CheckStrip | Entry::RunStrip);
    fs::write(
        folder.join(if is_strip { "strip" } else { "book" }),
        &call.source,
    )?;
    fs::write(folder.join("board"), &call.board)?;
    for (name, said) in difference.names.iter().zip(&difference.said) {
        fs::write(folder.join(format!("out.{name}")), &said.out)?;
    }
    let page = page(call, difference);
    fs::write(folder.join("call"), &page)?;
    Ok(page)
}

/// The call and what the sides say.
fn page(call: &Call, difference: &Difference) -> String {
    let mut page = describe(call);
    for (name, said) in difference.names.iter().zip(&difference.said) {
        let answer = said.answer;
        let files = if said.files_kept {
            ""
        } else {
            ", files changed"
        };
        page += &format!("{name}: {} {answer:?}{files}\n", answer.name());
    }
    page + &first_byte(&difference.said)
}

/// All that a call is given.
pub fn describe(call: &Call) -> String {
    let Call {
        entry,
        source,
        board,
        limit,
        allowance,
        room,
    } = call;
    format!(
        "{entry:?} limit {limit} allowance {allowance} output of {room} bytes\n\
         book or strip {source:02x?}\nboard {board:02x?}\n"
    )
}

/// The first byte of the outputs that differs; they stand between margins of canaries.
fn first_byte([one, other]: &[Said; 2]) -> String {
    match one
        .out
        .iter()
        .zip(&other.out)
        .position(|(one, other)| one != other)
    {
        None => "equal outputs\n".into(),
        Some(at) => format!(
            "outputs differ from byte {at} of the files out.*: {:02x} and {:02x}\n",
            one.out[at], other.out[at]
        ),
    }
}
