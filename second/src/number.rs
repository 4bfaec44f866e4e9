//! Numbers as they are written: decimal digits, no plus, no needless zero, no minus zero.

use crate::fault::Fault;

/// A number from 0 to 65,535.
pub fn natural(field: &[u8]) -> Result<u16, Fault> {
    digits(field)
        .and_then(|value| u16::try_from(value).ok())
        .ok_or(Fault::Number)
}

/// A number from 0 to 65,535 that is used as a place in a section.
pub fn place(field: &[u8]) -> Result<usize, Fault> {
    natural(field).map(usize::from)
}

/// A signed number of 32 bits.
pub fn word(field: &[u8]) -> Result<i32, Fault> {
    signed(field)
        .and_then(|value| i32::try_from(value).ok())
        .ok_or(Fault::Number)
}

/// The value of a number that may have a minus, but not before 0.
fn signed(field: &[u8]) -> Option<i64> {
    match field.strip_prefix(b"-") {
        Some(rest) => digits(rest).filter(|&value| value != 0).map(|value| -value),
        None => digits(field),
    }
}

/// The value of plain digits, if there is one digit at least, no needless zero, and the value fits.
fn digits(field: &[u8]) -> Option<i64> {
    match field {
        [] => None,
        [b'0', _, ..] => None,
        _ => field.iter().try_fold(0, |value, &byte| append(value, byte)),
    }
}

/// The value with one more digit behind it.
fn append(value: i64, byte: u8) -> Option<i64> {
    match byte {
        b'0'..=b'9' => value.checked_mul(10)?.checked_add(i64::from(byte - b'0')),
        _ => None,
    }
}

#[cfg(test)]
mod tests {
    use super::*;

    #[test]
    fn naturals() {
        assert_eq!(natural(b"0"), Ok(0));
        assert_eq!(natural(b"65535"), Ok(65535));
        let bad: [&[u8]; 9] = [
            b"",
            b"-0",
            b"-1",
            b"+1",
            b"007",
            b"00",
            b"65536",
            b"1 ",
            b"99999999999999999999",
        ];
        for field in bad {
            assert_eq!(natural(field), Err(Fault::Number));
        }
    }

    #[test]
    fn words() {
        assert_eq!(word(b"2147483647"), Ok(i32::MAX));
        assert_eq!(word(b"-2147483648"), Ok(i32::MIN));
        let bad: [&[u8]; 7] = [
            b"2147483648",
            b"-2147483649",
            b"-",
            b"--1",
            b"-0",
            b"-01",
            b"1\xff",
        ];
        for field in bad {
            assert_eq!(word(field), Err(Fault::Number));
        }
    }
}
