//! The definitions in the form in which they are evaluated: every name is
//! resolved, to a place in a frame or to a number in a table.

use crate::library::Native;

pub type DefinitionId = usize;
pub type ConstructorId = usize;
pub type FieldId = usize;

#[derive(Debug)]
pub enum Expression {
    Number(u64),
    Text(String),
    /// The variable at a place of the frame that many levels up: level 0 is
    /// that of the innermost `λ`, or of the clause where there is none.
    Local {
        up: usize,
        at: usize,
    },
    Definition(DefinitionId),
    Constructor(ConstructorId),
    Native(Native),
    Apply(Box<Expression>, Vec<Expression>),
    Lambda(Lambda),
    Record(Vec<(FieldId, Expression)>),
    Project(Box<Expression>, FieldId),
}

#[derive(Debug)]
pub struct Lambda {
    pub arity: usize,
    pub body: Box<Expression>,
}

/// A variable takes the next place of the clause's frame.
#[derive(Debug)]
pub enum Pattern {
    Variable,
    Number(u64),
    Suc(Box<Pattern>),
    Truth(bool),
    Empty,
    Cons(Box<Pattern>, Box<Pattern>),
    Constructor(ConstructorId, Vec<Pattern>),
}

#[derive(Debug)]
pub struct Clause {
    pub patterns: Vec<Pattern>,
    pub body: Expression,
}

/// Its clauses are tried in their order.
#[derive(Debug)]
pub struct Definition {
    /// `room/File.name`.
    pub name: String,
    pub arity: usize,
    pub clauses: Vec<Clause>,
}

#[derive(Debug, Default)]
pub struct Program {
    pub definitions: Vec<Definition>,
    pub constructors: Vec<String>,
    pub fields: Vec<String>,
}

impl Program {
    pub fn definition(&self, name: &str) -> Option<DefinitionId> {
        let mut definitions = self.definitions.iter();
        definitions.position(|definition| definition.name == name)
    }

    pub fn field(&self, name: &str) -> Option<FieldId> {
        self.fields.iter().position(|field| field == name)
    }
}
