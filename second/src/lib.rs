//! Reads a whole input, two head lines and a library, and says in one line what was found.

pub mod fault;
pub mod heading;
pub mod library;
pub mod lines;
pub mod number;
pub mod reader;
pub mod typing;

use fault::Refusal;
use library::{Library, Section};

/// How many lines stand before the library.
const HEAD_LINES: usize = 2;

/// The line to print for an input, whose library is read and mounted.
pub fn answer(input: &[u8]) -> String {
    match mount(input) {
        Ok(library) => format!("mounted,{}", row_counts(&library)),
        Err(refusal) => refusal.to_string(),
    }
}

/// Reads the head lines and the library; places count the lines of the whole input.
pub fn read(input: &[u8]) -> Result<Library, Refusal> {
    let (_, text) = heading::read_heading(input)?;
    reader::read_library(text).map_err(|refusal| refusal.below(HEAD_LINES))
}

/// Reads an input and mounts its library.
pub fn mount(input: &[u8]) -> Result<Library, Refusal> {
    let library = read(input)?;
    typing::mount(&library).map_err(|refusal| refusal.below(HEAD_LINES))?;
    Ok(library)
}

/// How many rows each section has, parted by commas.
fn row_counts(library: &Library) -> String {
    Section::ALL
        .map(|section| library.count(section).to_string())
        .join(",")
}
