//! Lines and fields: a line ends in a line feed, its fields are parted by commas.

use crate::fault::{Fault, Refusal};

/// Parts the first line, which is line number `line`, from the text behind it.
/// A line of which no byte is there is missing, and a line without a line feed has no listed form.
pub fn first_line(text: &[u8], line: usize) -> Result<(&[u8], &[u8]), Refusal> {
    if text.is_empty() {
        return Err(Fault::Form.at(0));
    }
    match text.iter().position(|&byte| byte == b'\n') {
        Some(end) => Ok((&text[..end], &text[end + 1..])),
        None => Err(Fault::Form.at(line)),
    }
}

/// The fields of a line; an empty line has one empty field.
pub fn fields(line: &[u8]) -> Vec<&[u8]> {
    line.split(|&byte| byte == b',').collect()
}
