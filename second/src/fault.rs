//! What can be wrong with an input, and where it is wrong.

use std::fmt;

/// The faults, each with the number that is printed for it.
#[derive(Clone, Copy, Debug, PartialEq, Eq)]
pub enum Fault {
    /// The line has no listed form.
    Form = 10,
    /// A number is badly written or outside its range.
    Number = 11,
    /// The section or the running number is out of order.
    Order = 12,
    /// A reference names nothing earlier.
    Reference = 13,
    /// A limit is passed.
    Limit = 14,
    /// A type is listed twice.
    Repeat = 15,
    /// The parts of a term break a typing rule.
    Typing = 16,
    /// The type of a term is not listed.
    Unlisted = 17,
    /// A method or a global breaks its rule.
    Definition = 18,
    /// A bound of play is outside its limits.
    Bounds = 20,
    /// The settings of an arithmetic are outside their limits.
    Settings = 22,
}

/// A fault with its line, counted from 1, or 0 where no line fits.
#[derive(Clone, Copy, Debug, PartialEq, Eq)]
pub struct Refusal {
    pub fault: Fault,
    pub line: usize,
}

impl Fault {
    /// The refusal for this fault at a line.
    pub fn at(self, line: usize) -> Refusal {
        Refusal { fault: self, line }
    }
}

impl Refusal {
    /// The same refusal when more lines stand before the text; no line stays no line.
    pub fn below(self, lines_before: usize) -> Refusal {
        match self.line {
            0 => self,
            line => self.fault.at(line + lines_before),
        }
    }
}

impl fmt::Display for Refusal {
    fn fmt(&self, out: &mut fmt::Formatter<'_>) -> fmt::Result {
        write!(out, "refused,{},{}", self.fault as u8, self.line)
    }
}
