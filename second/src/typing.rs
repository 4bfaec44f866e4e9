//! Types every term of a library and looks at its methods and globals.

use crate::fault::{Fault, Refusal};
use crate::library::{Body, Global, Library, Method, Section, Term, Type};

/// A library with the type numbers of its first terms.
/// Listed types are all different, so equal types have equal numbers.
struct Typed<'a> {
    library: &'a Library,
    types: Vec<usize>,
}

/// Whether a library may be mounted: all terms are typed in order, then methods and globals are looked at.
pub fn mount(library: &Library) -> Result<(), Refusal> {
    let typed = Typed::of(library)?;
    let free = free_variables(&library.terms);
    for (number, method) in library.methods.iter().enumerate() {
        if !typed.is_defined_method(&free, method) {
            return Err(Fault::Definition.at(library.line_of(Section::Methods, number)));
        }
    }
    for (number, global) in library.globals.iter().enumerate() {
        if !typed.is_defined_global(&free, global) {
            return Err(Fault::Definition.at(library.line_of(Section::Globals, number)));
        }
    }
    Ok(())
}

impl<'a> Typed<'a> {
    /// Types all terms, or tells the first that cannot be typed.
    fn of(library: &'a Library) -> Result<Self, Refusal> {
        let mut typed = Typed {
            library,
            types: Vec::new(),
        };
        for (number, term) in library.terms.iter().enumerate() {
            let type_number = typed
                .type_of(term)
                .map_err(|fault| fault.at(library.line_of(Section::Terms, number)))?;
            typed.types.push(type_number);
        }
        Ok(typed)
    }

    /// The type of a term whose parts are typed already; a broken rule comes before an unlisted type.
    fn type_of(&self, term: &Term) -> Result<usize, Fault> {
        match *term {
            Term::Unit => self.listed(Type::Unit),
            Term::Num(_) => self.listed(Type::Int),
            Term::Var(variable) => Ok(self.library.variables[variable]),
            Term::Meth(method) => Ok(self.library.methods[method].type_number),
            Term::Get(global) => Ok(self.library.globals[global].type_number),
            Term::Lam { variable, body } => self.listed(Type::Function {
                argument: self.library.variables[variable],
                result: self.types[body],
            }),
            Term::Set { global, value } => {
                let declared = self.library.globals[global].type_number;
                same(declared, self.types[value]).and(self.listed(Type::Unit))
            }
            Term::Op(_, a, b) => self.int(a).and(self.int(b)),
            Term::Pair(a, b) => self.listed(Type::Pair(self.types[a], self.types[b])),
            Term::Fst(part) => self.pair_parts(part).map(|(first, _)| first),
            Term::Snd(part) => self.pair_parts(part).map(|(_, second)| second),
            Term::App { function, argument } => self.application(function, argument),
            Term::If {
                condition,
                then,
                otherwise,
            } => {
                self.int(condition)?;
                same(self.types[then], self.types[otherwise])
            }
            Term::Let {
                variable,
                value,
                body,
            } => {
                same(self.library.variables[variable], self.types[value])?;
                Ok(self.types[body])
            }
            Term::Assert(part) => self.int(part).and(self.listed(Type::Unit)),
        }
    }

    /// The number of a type, if it is listed.
    fn listed(&self, wanted: Type) -> Result<usize, Fault> {
        self.library
            .types
            .iter()
            .position(|&listed| listed == wanted)
            .ok_or(Fault::Unlisted)
    }

    /// The type of a term that must be an int.
    fn int(&self, term: usize) -> Result<usize, Fault> {
        let type_number = self.types[term];
        match self.library.types[type_number] {
            Type::Int => Ok(type_number),
            _ => Err(Fault::Typing),
        }
    }

    /// The two types in the pair type of a term.
    fn pair_parts(&self, term: usize) -> Result<(usize, usize), Fault> {
        match self.library.types[self.types[term]] {
            Type::Pair(first, second) => Ok((first, second)),
            _ => Err(Fault::Typing),
        }
    }

    /// The result type of a function that is applied to an argument of its argument type.
    fn application(&self, function: usize, value: usize) -> Result<usize, Fault> {
        match self.library.types[self.types[function]] {
            Type::Function { argument, result } if argument == self.types[value] => Ok(result),
            _ => Err(Fault::Typing),
        }
    }

    /// Whether a method has a function type and its body, if any, is a closed `lam` of that type.
    fn is_defined_method(&self, free: &[u64], method: &Method) -> bool {
        let listed = self.library.types[method.type_number];
        let has_body = match method.body {
            Body::Abstract => true,
            Body::Public(term) | Body::Private(term) => {
                self.is_closed_lam(free, term, method.type_number)
            }
        };
        matches!(listed, Type::Function { .. }) && has_body
    }

    /// Whether a global is an int that begins with a `num`, or a function that begins with a closed `lam`.
    fn is_defined_global(&self, free: &[u64], global: &Global) -> bool {
        match self.library.types[global.type_number] {
            Type::Int => matches!(self.library.terms.get(global.term), Some(Term::Num(_))),
            Type::Function { .. } => self.is_closed_lam(free, global.term, global.type_number),
            Type::Unit | Type::Pair(..) => false,
        }
    }

    /// Whether a term exists and is a `lam` of this very type without free variables.
    fn is_closed_lam(&self, free: &[u64], term: usize, type_number: usize) -> bool {
        matches!(self.library.terms.get(term), Some(Term::Lam { .. }))
            && self.types[term] == type_number
            && free[term] == 0
    }
}

/// The one number of two types that must be equal.
fn same(a: usize, b: usize) -> Result<usize, Fault> {
    if a == b {
        Ok(a)
    } else {
        Err(Fault::Typing)
    }
}

/// The free variables of each term, one bit for each of the 64 possible variables.
fn free_variables(terms: &[Term]) -> Vec<u64> {
    let mut free: Vec<u64> = Vec::with_capacity(terms.len());
    for term in terms {
        let of_this = match *term {
            Term::Unit | Term::Num(_) | Term::Meth(_) | Term::Get(_) => 0,
            Term::Var(variable) => bit(variable),
            Term::Lam { variable, body } => free[body] & !bit(variable),
            Term::Let {
                variable,
                value,
                body,
            } => free[value] | (free[body] & !bit(variable)),
            Term::Set { value: part, .. }
            | Term::Fst(part)
            | Term::Snd(part)
            | Term::Assert(part) => free[part],
            Term::Op(_, a, b)
            | Term::Pair(a, b)
            | Term::App {
                function: a,
                argument: b,
            } => free[a] | free[b],
            Term::If {
                condition,
                then,
                otherwise,
            } => free[condition] | free[then] | free[otherwise],
        };
        free.push(of_this);
    }
    free
}

/// The set that holds one variable.
fn bit(variable: usize) -> u64 {
    1 << variable
}
