//! Prints what the second reader finds on standard input.

use std::io::{self, Read};

/// Reads all of standard input and prints one line.
fn main() -> io::Result<()> {
    let mut input = Vec::new();
    io::stdin().lock().read_to_end(&mut input)?;
    println!("{}", second_reader::answer(&input));
    Ok(())
}
