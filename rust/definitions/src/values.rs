//! What expressions come to. Arguments, fields and list elements are thunks:
//! evaluated when somebody looks at them, and then at most once.

use crate::library::Native;
use crate::program::{ConstructorId, DefinitionId, Expression, FieldId, Lambda};
use std::cell::RefCell;
use std::rc::Rc;

#[derive(Clone)]
pub enum Value<'p> {
    Number(u64),
    Truth(bool),
    Character(char),
    List(List<'p>),
    /// A constructor without arguments.
    Constant(ConstructorId),
    /// A constructor with arguments.
    Variant(Rc<Variant<'p>>),
    Record(Rc<Record<'p>>),
    Function(Rc<Function<'p>>),
}

pub struct Variant<'p> {
    pub constructor: ConstructorId,
    pub arguments: Vec<Thunk<'p>>,
}

pub struct Record<'p> {
    pub fields: Vec<(FieldId, Thunk<'p>)>,
}

/// A function that still lacks arguments.
pub struct Function<'p> {
    pub callee: Callee<'p>,
    pub arguments: Vec<Thunk<'p>>,
}

#[derive(Clone)]
pub enum Callee<'p> {
    Definition(DefinitionId),
    Native(Native),
    Lambda(&'p Lambda, Rc<Frame<'p>>),
}

/// Lists of numbers are kept in one piece, so that an element is found, and
/// a part taken, at once however long the list is.
#[derive(Clone)]
pub enum List<'p> {
    Empty,
    /// Never empty.
    Numbers(Numbers),
    Cell(Rc<Cell<'p>>),
}

pub struct Cell<'p> {
    pub head: Thunk<'p>,
    pub tail: Thunk<'p>,
}

/// A part of a shared list of numbers.
#[derive(Clone)]
pub struct Numbers {
    all: Rc<Vec<u64>>,
    start: u32,
    end: u32,
}

impl Numbers {
    pub fn as_slice(&self) -> &[u64] {
        &self.all[self.start as usize..self.end as usize]
    }

    /// The elements from `start` up to `end`, which is within the list.
    pub fn part<'p>(&self, start: usize, end: usize) -> List<'p> {
        if start >= end {
            return List::Empty;
        }
        assert!(end <= self.as_slice().len(), "a part past the end");
        List::Numbers(Numbers {
            all: self.all.clone(),
            start: self.start + start as u32,
            end: self.start + end as u32,
        })
    }
}

impl<'p> List<'p> {
    pub fn numbers(numbers: Vec<u64>) -> List<'p> {
        let end = u32::try_from(numbers.len()).expect("a list too long to be kept in one piece");
        if end == 0 {
            return List::Empty;
        }
        let all = Rc::new(numbers);
        List::Numbers(Numbers { all, start: 0, end })
    }

    pub fn cell(head: Thunk<'p>, tail: Thunk<'p>) -> List<'p> {
        List::Cell(Rc::new(Cell { head, tail }))
    }
}

/// The variables of a clause or a `λ`, and those around it.
pub struct Frame<'p> {
    pub slots: Vec<Thunk<'p>>,
    pub outer: Option<Rc<Frame<'p>>>,
}

impl<'p> Frame<'p> {
    pub fn variable(&self, up: usize, at: usize) -> &Thunk<'p> {
        let mut frame = self;
        for _ in 0..up {
            frame = frame.outer.as_deref().expect("a frame further out");
        }
        &frame.slots[at]
    }
}

#[derive(Clone)]
pub enum Thunk<'p> {
    Known(Value<'p>),
    Delayed(Rc<RefCell<Delayed<'p>>>),
}

pub enum Delayed<'p> {
    Waiting(&'p Expression, Rc<Frame<'p>>),
    Running,
    Done(Value<'p>),
}

impl<'p> Thunk<'p> {
    pub fn waiting(expression: &'p Expression, frame: Rc<Frame<'p>>) -> Thunk<'p> {
        Thunk::Delayed(Rc::new(RefCell::new(Delayed::Waiting(expression, frame))))
    }

    /// The value, if it is there already.
    pub fn known(&self) -> Option<Value<'p>> {
        match self {
            Thunk::Known(value) => Some(value.clone()),
            Thunk::Delayed(delayed) => match &*delayed.borrow() {
                Delayed::Done(value) => Some(value.clone()),
                _ => None,
            },
        }
    }
}

impl<'p> From<Value<'p>> for Thunk<'p> {
    fn from(value: Value<'p>) -> Thunk<'p> {
        Thunk::Known(value)
    }
}
