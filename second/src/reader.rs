//! Reads a library's text line by line.

use crate::fault::{Fault, Refusal};
use crate::library::{Body, Global, Library, Method, Operation, Row, Term, Type};
use crate::lines::{fields, first_line};
use crate::number::{place, word};

/// The most bytes of a library's text.
const MOST_BYTES: usize = 32_768;

/// Reads the whole text, or tells the first fault; lines are counted from 1.
pub fn read_library(text: &[u8]) -> Result<Library, Refusal> {
    if text.len() > MOST_BYTES {
        return Err(Fault::Limit.at(0));
    }
    let mut library = Library::default();
    let mut rest = text;
    let mut number = 0;
    while !rest.is_empty() {
        number += 1;
        let (line, behind) = first_line(rest, number)?;
        read_line(&mut library, line).map_err(|fault| fault.at(number))?;
        rest = behind;
    }
    Ok(library)
}

/// Reads one line into the library.
fn read_line(library: &mut Library, line: &[u8]) -> Result<(), Fault> {
    let (number, row) = read_row(&fields(line))?;
    library.add(number, row)
}

/// The running number and the row that a line's fields write down.
/// The words and the number of fields are looked at before any number is.
fn read_row(line: &[&[u8]]) -> Result<(usize, Row), Fault> {
    match *line {
        [b"var", number, type_number] => Ok((place(number)?, Row::Variable(place(type_number)?))),
        [b"global", number, type_number, term] => {
            let number = place(number)?;
            let type_number = place(type_number)?;
            let term = place(term)?;
            Ok((number, Row::Global(Global { type_number, term })))
        }
        [b"type", number, ref form @ ..] => {
            let listed = read_type(form)?;
            Ok((place(number)?, Row::Type(listed)))
        }
        [b"method", number, ref form @ ..] => {
            let method = read_method(form)?;
            Ok((place(number)?, Row::Method(method)))
        }
        [b"term", number, ref form @ ..] => {
            let term = read_term(form)?;
            Ok((place(number)?, Row::Term(term)))
        }
        _ => Err(Fault::Form),
    }
}

/// A type, from the fields behind its running number.
fn read_type(form: &[&[u8]]) -> Result<Type, Fault> {
    match *form {
        [b"unit"] => Ok(Type::Unit),
        [b"int"] => Ok(Type::Int),
        [b"pair", a, b] => Ok(Type::Pair(place(a)?, place(b)?)),
        [b"fun", a, b] => Ok(Type::Function {
            argument: place(a)?,
            result: place(b)?,
        }),
        _ => Err(Fault::Form),
    }
}

/// A method, from the fields behind its running number.
fn read_method(form: &[&[u8]]) -> Result<Method, Fault> {
    let (type_number, body) = match *form {
        [b"abstract", type_number] => (type_number, Body::Abstract),
        [b"public", type_number, term] => (type_number, Body::Public(place(term)?)),
        [b"private", type_number, term] => (type_number, Body::Private(place(term)?)),
        _ => return Err(Fault::Form),
    };
    Ok(Method {
        type_number: place(type_number)?,
        body,
    })
}

/// A term, from the fields behind its running number.
fn read_term(form: &[&[u8]]) -> Result<Term, Fault> {
    match *form {
        [b"unit"] => Ok(Term::Unit),
        [b"num", value] => Ok(Term::Num(word(value)?)),
        [b"var", variable] => Ok(Term::Var(place(variable)?)),
        [b"meth", method] => Ok(Term::Meth(place(method)?)),
        [b"get", global] => Ok(Term::Get(place(global)?)),
        [b"fst", part] => Ok(Term::Fst(place(part)?)),
        [b"snd", part] => Ok(Term::Snd(place(part)?)),
        [b"assert", part] => Ok(Term::Assert(place(part)?)),
        [b"lam", variable, body] => Ok(Term::Lam {
            variable: place(variable)?,
            body: place(body)?,
        }),
        [b"set", global, value] => Ok(Term::Set {
            global: place(global)?,
            value: place(value)?,
        }),
        [b"pair", a, b] => Ok(Term::Pair(place(a)?, place(b)?)),
        [b"app", function, argument] => Ok(Term::App {
            function: place(function)?,
            argument: place(argument)?,
        }),
        _ => read_long_term(form),
    }
}

/// A term with three fields behind its word.
fn read_long_term(form: &[&[u8]]) -> Result<Term, Fault> {
    match *form {
        [b"op", operation, a, b] => {
            let operation = read_operation(operation)?;
            Ok(Term::Op(operation, place(a)?, place(b)?))
        }
        [b"if", condition, then, otherwise] => Ok(Term::If {
            condition: place(condition)?,
            then: place(then)?,
            otherwise: place(otherwise)?,
        }),
        [b"let", variable, value, body] => Ok(Term::Let {
            variable: place(variable)?,
            value: place(value)?,
            body: place(body)?,
        }),
        _ => Err(Fault::Form),
    }
}

/// The operation with this word; an unknown word is no listed form.
fn read_operation(name: &[u8]) -> Result<Operation, Fault> {
    match name {
        b"add" => Ok(Operation::Add),
        b"sub" => Ok(Operation::Sub),
        b"mul" => Ok(Operation::Mul),
        b"less" => Ok(Operation::Less),
        b"equal" => Ok(Operation::Equal),
        _ => Err(Fault::Form),
    }
}

#[cfg(test)]
mod tests {
    use super::*;

    /// The refusal of a text that must be refused.
    fn refusal(text: &str) -> Refusal {
        read_library(text.as_bytes()).expect_err("the text is not to be read")
    }

    #[test]
    fn the_first_of_two_faults_on_a_line() {
        assert_eq!(refusal("type,x,unit,\n"), Fault::Form.at(1));
        assert_eq!(refusal("term,x,op,div,0,0\n"), Fault::Form.at(1));
        assert_eq!(refusal("type,007,fun,0,0\n"), Fault::Number.at(1));
        assert_eq!(refusal("type,1,fun,0,0\n"), Fault::Order.at(1));
    }

    #[test]
    fn the_last_line_needs_its_line_feed() {
        assert_eq!(refusal("type,0,unit\ntype,9,fun,7,+1"), Fault::Form.at(2));
    }

    #[test]
    fn the_text_length_comes_first() {
        assert_eq!(refusal(&"x".repeat(MOST_BYTES)), Fault::Form.at(1));
        assert_eq!(refusal(&"x".repeat(MOST_BYTES + 1)), Fault::Limit.at(0));
    }
}
