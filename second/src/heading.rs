//! The two head lines: the arithmetic and the bounds of play.

use crate::fault::{Fault, Refusal};
use crate::lines::{fields, first_line};
use crate::number::{natural, word};

/// The most words that the host may have to say.
const MOST_HOST_WORDS: i64 = 4096;
const MOST_DEPTH: u16 = 16;
const MOST_INSISTENCE: u16 = 8;
const MOST_STEPS: u16 = 2048;

/// A kind of arithmetic with its settings; the host may say the words from `low` to `high`.
#[derive(Clone, Copy, Debug, PartialEq, Eq)]
pub enum Arithmetic {
    /// All words of 32 bits.
    Word { low: i32, high: i32 },
    /// The words from 0 to `top`.
    Counter { top: u16, low: i32, high: i32 },
}

/// How far a play may go.
#[derive(Clone, Copy, Debug, PartialEq, Eq)]
pub struct Bounds {
    pub depth: u16,
    pub insistence: u16,
    pub steps: u16,
}

/// Both head lines.
#[derive(Clone, Copy, Debug, PartialEq, Eq)]
pub struct Heading {
    pub arithmetic: Arithmetic,
    pub bounds: Bounds,
}

impl Arithmetic {
    /// Whether the settings are inside their limits.
    fn is_allowed(&self) -> bool {
        match *self {
            Arithmetic::Word { low, high } => host_words(low, high),
            Arithmetic::Counter { top, low, high } => {
                top >= 1 && 0 <= low && high <= i32::from(top) && host_words(low, high)
            }
        }
    }
}

impl Bounds {
    /// Whether each bound is inside its limits.
    fn is_allowed(&self) -> bool {
        self.depth <= MOST_DEPTH
            && self.insistence <= MOST_INSISTENCE
            && (1..=MOST_STEPS).contains(&self.steps)
    }
}

/// Whether the words from `low` to `high` are one at least and not too many.
fn host_words(low: i32, high: i32) -> bool {
    let count = i64::from(high) - i64::from(low) + 1;
    (1..=MOST_HOST_WORDS).contains(&count)
}

/// Reads both head lines, the first one whole before the second; also gives the text behind them.
pub fn read_heading(input: &[u8]) -> Result<(Heading, &[u8]), Refusal> {
    let (line, rest) = first_line(input, 1)?;
    let arithmetic = read_arithmetic(line).map_err(|fault| fault.at(1))?;
    let (line, rest) = first_line(rest, 2)?;
    let bounds = read_bounds(line).map_err(|fault| fault.at(2))?;
    Ok((Heading { arithmetic, bounds }, rest))
}

/// Reads `arith,word,LO,HI` or `arith,counter,TOP,LO,HI`.
fn read_arithmetic(line: &[u8]) -> Result<Arithmetic, Fault> {
    let arithmetic = match fields(line)[..] {
        [b"arith", b"word", low, high] => Arithmetic::Word {
            low: word(low)?,
            high: word(high)?,
        },
        [b"arith", b"counter", top, low, high] => Arithmetic::Counter {
            top: natural(top)?,
            low: word(low)?,
            high: word(high)?,
        },
        _ => return Err(Fault::Form),
    };
    if arithmetic.is_allowed() {
        Ok(arithmetic)
    } else {
        Err(Fault::Settings)
    }
}

/// Reads `play,DEPTH,INSISTENCE,STEPS`.
fn read_bounds(line: &[u8]) -> Result<Bounds, Fault> {
    let bounds = match fields(line)[..] {
        [b"play", depth, insistence, steps] => Bounds {
            depth: natural(depth)?,
            insistence: natural(insistence)?,
            steps: natural(steps)?,
        },
        _ => return Err(Fault::Form),
    };
    if bounds.is_allowed() {
        Ok(bounds)
    } else {
        Err(Fault::Bounds)
    }
}
