//! A library as rows in five sections, and the rules by which a row may follow the rows before it.

use crate::fault::Fault;

/// The most leaves of one type.
const MOST_LEAVES: usize = 4;

/// The sections, in the order in which they stand.
#[derive(Clone, Copy, Debug, PartialEq, Eq, PartialOrd, Ord)]
pub enum Section {
    Types,
    Variables,
    Methods,
    Globals,
    Terms,
}

/// A type; parts are numbers of earlier types.
#[derive(Clone, Copy, Debug, PartialEq, Eq)]
pub enum Type {
    Unit,
    Int,
    Pair(usize, usize),
    Function { argument: usize, result: usize },
}

/// Where the body of a method comes from, as the number of a term.
#[derive(Clone, Copy, Debug, PartialEq, Eq)]
pub enum Body {
    Abstract,
    Public(usize),
    Private(usize),
}

/// A method with the number of its type.
#[derive(Clone, Copy, Debug, PartialEq, Eq)]
pub struct Method {
    pub type_number: usize,
    pub body: Body,
}

/// A global with the number of its type and of the term that it begins with.
#[derive(Clone, Copy, Debug, PartialEq, Eq)]
pub struct Global {
    pub type_number: usize,
    pub term: usize,
}

/// The operations of an arithmetic.
#[derive(Clone, Copy, Debug, PartialEq, Eq)]
pub enum Operation {
    Add,
    Sub,
    Mul,
    Less,
    Equal,
}

/// A term; parts are numbers of earlier terms.
#[derive(Clone, Copy, Debug, PartialEq, Eq)]
pub enum Term {
    Unit,
    Num(i32),
    Var(usize),
    Meth(usize),
    Get(usize),
    Lam {
        variable: usize,
        body: usize,
    },
    Set {
        global: usize,
        value: usize,
    },
    Op(Operation, usize, usize),
    Pair(usize, usize),
    Fst(usize),
    Snd(usize),
    App {
        function: usize,
        argument: usize,
    },
    If {
        condition: usize,
        then: usize,
        otherwise: usize,
    },
    Let {
        variable: usize,
        value: usize,
        body: usize,
    },
    Assert(usize),
}

/// One row of any section.
#[derive(Clone, Copy, Debug, PartialEq, Eq)]
pub enum Row {
    Type(Type),
    /// A variable with the number of its type.
    Variable(usize),
    Method(Method),
    Global(Global),
    Term(Term),
}

/// All rows of a library.
#[derive(Clone, Debug, Default, PartialEq, Eq)]
pub struct Library {
    pub types: Vec<Type>,
    pub variables: Vec<usize>,
    pub methods: Vec<Method>,
    pub globals: Vec<Global>,
    pub terms: Vec<Term>,
}

impl Section {
    pub const ALL: [Section; 5] = [
        Section::Types,
        Section::Variables,
        Section::Methods,
        Section::Globals,
        Section::Terms,
    ];

    /// The most rows of the section.
    fn limit(self) -> usize {
        match self {
            Section::Types | Section::Variables | Section::Methods => 64,
            Section::Globals => 16,
            Section::Terms => 1024,
        }
    }
}

impl Row {
    /// The section to which the row belongs.
    fn section(&self) -> Section {
        match self {
            Row::Type(_) => Section::Types,
            Row::Variable(_) => Section::Variables,
            Row::Method(_) => Section::Methods,
            Row::Global(_) => Section::Globals,
            Row::Term(_) => Section::Terms,
        }
    }
}

impl Library {
    /// How many rows a section has so far.
    pub fn count(&self, section: Section) -> usize {
        match section {
            Section::Types => self.types.len(),
            Section::Variables => self.variables.len(),
            Section::Methods => self.methods.len(),
            Section::Globals => self.globals.len(),
            Section::Terms => self.terms.len(),
        }
    }

    /// The line of a row of the library's text, counted from 1.
    pub fn line_of(&self, section: Section, number: usize) -> usize {
        let rows_before: usize = Section::ALL
            .into_iter()
            .filter(|&earlier| earlier < section)
            .map(|earlier| self.count(earlier))
            .sum();
        rows_before + number + 1
    }

    /// Adds a row with its running number, or tells the first rule that it breaks.
    pub fn add(&mut self, number: usize, row: Row) -> Result<(), Fault> {
        if !self.is_in_order(number, &row) {
            return Err(Fault::Order);
        }
        if !self.has_all_named_by(&row) {
            return Err(Fault::Reference);
        }
        if !self.has_room_for(&row) {
            return Err(Fault::Limit);
        }
        if self.lists_already(&row) {
            return Err(Fault::Repeat);
        }
        self.push(row);
        Ok(())
    }

    /// Whether no later section has begun and the running number is the next one.
    fn is_in_order(&self, number: usize, row: &Row) -> bool {
        let section = row.section();
        let later_begun = Section::ALL
            .into_iter()
            .any(|other| other > section && self.count(other) > 0);
        !later_begun && number == self.count(section)
    }

    /// Whether everything that the row names stands before it, the term of a method or global left aside.
    fn has_all_named_by(&self, row: &Row) -> bool {
        let is_type = |number: usize| number < self.types.len();
        match *row {
            Row::Type(Type::Unit | Type::Int) => true,
            Row::Type(Type::Pair(a, b)) => is_type(a) && is_type(b),
            Row::Type(Type::Function { argument, result }) => is_type(argument) && is_type(result),
            Row::Variable(type_number) => is_type(type_number),
            Row::Method(method) => is_type(method.type_number),
            Row::Global(global) => is_type(global.type_number),
            Row::Term(term) => self.has_all_parts_of(&term),
        }
    }

    /// Whether the parts, the variable, the method or the global of a term stand before it.
    fn has_all_parts_of(&self, term: &Term) -> bool {
        let is_variable = |number: usize| number < self.variables.len();
        let is_global = |number: usize| number < self.globals.len();
        let are_terms = |parts: &[usize]| parts.iter().all(|&part| part < self.terms.len());
        match *term {
            Term::Unit | Term::Num(_) => true,
            Term::Var(variable) => is_variable(variable),
            Term::Meth(method) => method < self.methods.len(),
            Term::Get(global) => is_global(global),
            Term::Lam { variable, body } => is_variable(variable) && are_terms(&[body]),
            Term::Set { global, value } => is_global(global) && are_terms(&[value]),
            Term::Op(_, a, b) | Term::Pair(a, b) => are_terms(&[a, b]),
            Term::Fst(part) | Term::Snd(part) | Term::Assert(part) => are_terms(&[part]),
            Term::App { function, argument } => are_terms(&[function, argument]),
            Term::If {
                condition,
                then,
                otherwise,
            } => are_terms(&[condition, then, otherwise]),
            Term::Let {
                variable,
                value,
                body,
            } => is_variable(variable) && are_terms(&[value, body]),
        }
    }

    /// Whether the section has a free row and a type has not too many leaves.
    fn has_room_for(&self, row: &Row) -> bool {
        let section = row.section();
        let few_leaves = match row {
            Row::Type(listed) => self.leaves(listed) <= MOST_LEAVES,
            _ => true,
        };
        self.count(section) < section.limit() && few_leaves
    }

    /// How many units, ints and functions the pairs of a type hold.
    fn leaves(&self, listed: &Type) -> usize {
        match *listed {
            Type::Pair(a, b) => self.leaves(&self.types[a]) + self.leaves(&self.types[b]),
            Type::Unit | Type::Int | Type::Function { .. } => 1,
        }
    }

    /// Whether the row is a type that is listed already.
    fn lists_already(&self, row: &Row) -> bool {
        matches!(row, Row::Type(listed) if self.types.contains(listed))
    }

    /// Puts the row behind the others of its section.
    fn push(&mut self, row: Row) {
        match row {
            Row::Type(listed) => self.types.push(listed),
            Row::Variable(type_number) => self.variables.push(type_number),
            Row::Method(method) => self.methods.push(method),
            Row::Global(global) => self.globals.push(global),
            Row::Term(term) => self.terms.push(term),
        }
    }
}
