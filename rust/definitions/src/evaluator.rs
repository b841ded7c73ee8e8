//! Evaluates expressions of a program, lazily.
//!
//! The definitions say what is so and not in which order to find it out; they
//! count on `cond` and `&&` not to look at what they do not need. A call in
//! tail position takes no room on the stack; other recursion goes as deep as a
//! set has records, so run the evaluator on a thread with a large stack.

use crate::library::{arithmetic, Native};
use crate::natives::{characters, uncons};
use crate::program::{Clause, DefinitionId, Expression, FieldId, Pattern, Program};
use crate::values::{Callee, Delayed, Frame, Function, List, Record, Thunk, Value, Variant};
use std::cell::{OnceCell, RefCell};
use std::fmt;
use std::rc::Rc;

/// Why an evaluation cannot go on. Checked definitions never get here, so it
/// is a fault of this program, or the definitions do not check.
#[derive(Debug)]
pub struct Stuck(String);

impl fmt::Display for Stuck {
    fn fmt(&self, out: &mut fmt::Formatter<'_>) -> fmt::Result {
        out.write_str(&self.0)
    }
}

pub(crate) fn stuck<T>(message: impl Into<String>) -> Result<T, Stuck> {
    Err(Stuck(message.into()))
}

pub(crate) type Answer<'p> = Result<Value<'p>, Stuck>;

/// What is left to do after a call has found its clause.
enum Next<'p> {
    Done(Value<'p>),
    Body(&'p Expression, Rc<Frame<'p>>),
}

pub struct Evaluator<'p> {
    program: &'p Program,
    /// The values of definitions without arguments.
    constants: Vec<OnceCell<Value<'p>>>,
    /// For definitions of one list of numbers that are asked for again and
    /// again with the same list: the last list and the value.
    remembered: Vec<Option<Memory<'p>>>,
}

type Memory<'p> = RefCell<Option<(Vec<u64>, Value<'p>)>>;

impl<'p> Evaluator<'p> {
    pub fn new(program: &'p Program) -> Evaluator<'p> {
        Evaluator {
            program,
            constants: program
                .definitions
                .iter()
                .map(|_| OnceCell::new())
                .collect(),
            remembered: program.definitions.iter().map(|_| None).collect(),
        }
    }

    /// From now on keeps the last value of a definition that takes one list
    /// of numbers and nothing else.
    pub fn remember(&mut self, definition: DefinitionId) {
        assert_eq!(self.program.definitions[definition].arity, 1);
        self.remembered[definition] = Some(RefCell::new(None));
    }

    /// The value of a definition at arguments.
    pub fn call(&self, definition: DefinitionId, arguments: Vec<Thunk<'p>>) -> Answer<'p> {
        if arguments.is_empty() {
            return self.constant(definition);
        }
        let next = self.enter(Callee::Definition(definition), arguments)?;
        self.finish(next)
    }

    /// The value of a record's field.
    pub fn field(&self, record: &Value<'p>, field: FieldId) -> Answer<'p> {
        self.force(&self.field_of(record, field)?)
    }

    pub fn number(&self, value: Value<'p>) -> Result<u64, Stuck> {
        match value {
            Value::Number(number) => Ok(number),
            other => stuck(format!("a number expected, {} found", kind(&other))),
        }
    }

    /// All elements of a list of numbers.
    pub fn numbers(&self, value: Value<'p>) -> Result<Vec<u64>, Stuck> {
        let mut numbers = Vec::new();
        let mut rest = self.list(value)?;
        loop {
            match rest {
                List::Empty => return Ok(numbers),
                List::Numbers(more) => {
                    numbers.extend_from_slice(more.as_slice());
                    return Ok(numbers);
                }
                List::Cell(cell) => {
                    numbers.push(self.number(self.force(&cell.head)?)?);
                    rest = self.list(self.force(&cell.tail)?)?;
                }
            }
        }
    }

    pub(crate) fn truth(&self, value: Value<'p>) -> Result<bool, Stuck> {
        match value {
            Value::Truth(truth) => Ok(truth),
            other => stuck(format!("a truth value expected, {} found", kind(&other))),
        }
    }

    pub(crate) fn list(&self, value: Value<'p>) -> Result<List<'p>, Stuck> {
        match value {
            Value::List(list) => Ok(list),
            other => stuck(format!("a list expected, {} found", kind(&other))),
        }
    }

    pub(crate) fn force(&self, thunk: &Thunk<'p>) -> Answer<'p> {
        let delayed = match thunk {
            Thunk::Known(value) => return Ok(value.clone()),
            Thunk::Delayed(delayed) => delayed,
        };
        if let Delayed::Done(value) = &*delayed.borrow() {
            return Ok(value.clone());
        }
        match delayed.replace(Delayed::Running) {
            Delayed::Waiting(expression, frame) => {
                let value = self.evaluate(expression, frame)?;
                delayed.replace(Delayed::Done(value.clone()));
                Ok(value)
            }
            _ => stuck("a value that needs itself"),
        }
    }

    fn finish(&self, next: Next<'p>) -> Answer<'p> {
        match next {
            Next::Done(value) => Ok(value),
            Next::Body(expression, frame) => self.evaluate(expression, frame),
        }
    }

    fn evaluate(&self, expression: &'p Expression, frame: Rc<Frame<'p>>) -> Answer<'p> {
        let (mut expression, mut frame) = (expression, frame);
        loop {
            match self.step(expression, &frame)? {
                Next::Done(value) => return Ok(value),
                Next::Body(body, inner) => (expression, frame) = (body, inner),
            }
        }
    }

    /// Up to the value, or to the expression that has the same value.
    fn step(&self, expression: &'p Expression, frame: &Rc<Frame<'p>>) -> Result<Next<'p>, Stuck> {
        let value = match expression {
            Expression::Apply(head, arguments) => return self.application(head, arguments, frame),
            Expression::Number(number) => Value::Number(*number),
            Expression::Text(text) => characters(text),
            Expression::Local { up, at } => self.force(frame.variable(*up, *at))?,
            Expression::Definition(id) => match self.program.definitions[*id].arity {
                0 => self.constant(*id)?,
                _ => function(Callee::Definition(*id), Vec::new()),
            },
            Expression::Constructor(constructor) => Value::Constant(*constructor),
            Expression::Native(native) => match native.arity() {
                0 => self.native(*native, &[])?,
                _ => function(Callee::Native(*native), Vec::new()),
            },
            Expression::Lambda(lambda) => {
                function(Callee::Lambda(lambda, frame.clone()), Vec::new())
            }
            Expression::Record(fields) => {
                let fields = fields.iter();
                let fields = fields.map(|(field, value)| (*field, self.delay(value, frame)));
                Value::Record(Rc::new(Record {
                    fields: fields.collect(),
                }))
            }
            Expression::Project(from, field) => {
                let record = self.evaluate(from, frame.clone())?;
                self.field(&record, *field)?
            }
        };
        Ok(Next::Done(value))
    }

    fn application(
        &self,
        head: &'p Expression,
        arguments: &'p [Expression],
        frame: &Rc<Frame<'p>>,
    ) -> Result<Next<'p>, Stuck> {
        if let Expression::Native(native) = head {
            if let Some(chosen) = self.choice(*native, arguments, frame)? {
                return Ok(Next::Body(chosen, frame.clone()));
            }
        }
        let delay = |argument| self.delay(argument, frame);
        let arguments: Vec<Thunk> = arguments.iter().map(delay).collect();
        match head {
            Expression::Definition(id) => self.supply(Callee::Definition(*id), arguments),
            Expression::Native(native) => self.supply(Callee::Native(*native), arguments),
            Expression::Constructor(constructor) => {
                Ok(Next::Done(Value::Variant(Rc::new(Variant {
                    constructor: *constructor,
                    arguments,
                }))))
            }
            head => self.apply(self.evaluate(head, frame.clone())?, arguments),
        }
    }

    /// For the functions that look at one argument to choose another: the
    /// expression that the answer is. `None` for all other functions, and
    /// where the number of arguments is another.
    fn choice(
        &self,
        native: Native,
        arguments: &'p [Expression],
        frame: &Rc<Frame<'p>>,
    ) -> Result<Option<&'p Expression>, Stuck> {
        static TRUE: Expression = Expression::Native(Native::True);
        static FALSE: Expression = Expression::Native(Native::False);
        let (test, if_true, if_false) = match (native, arguments) {
            (Native::Choose, [test, if_true, if_false]) => (test, if_true, if_false),
            (Native::And, [test, other]) => (test, other, &FALSE),
            (Native::Or, [test, other]) => (test, &TRUE, other),
            _ => return Ok(None),
        };
        let test = self.truth(self.evaluate(test, frame.clone())?)?;
        Ok(Some(if test { if_true } else { if_false }))
    }

    /// An argument, not yet evaluated. What costs no more to have than to
    /// delay is had at once.
    fn delay(&self, expression: &'p Expression, frame: &Rc<Frame<'p>>) -> Thunk<'p> {
        match self.at_hand(expression, frame) {
            Some(thunk) => thunk,
            None => Thunk::waiting(expression, frame.clone()),
        }
    }

    fn at_hand(&self, expression: &'p Expression, frame: &Rc<Frame<'p>>) -> Option<Thunk<'p>> {
        match expression {
            Expression::Number(number) => Some(Value::Number(*number).into()),
            Expression::Local { up, at } => Some(frame.variable(*up, *at).clone()),
            Expression::Constructor(constructor) => Some(Value::Constant(*constructor).into()),
            Expression::Project(from, field) => {
                let record = self.at_hand(from, frame)?.known()?;
                self.field_of(&record, *field).ok()
            }
            Expression::Apply(head, arguments) => match (&**head, &arguments[..]) {
                (Expression::Native(native), [a, b]) if native.is_arithmetic() => {
                    let number = |argument| match self.at_hand(argument, frame)?.known()? {
                        Value::Number(number) => Some(number),
                        _ => None,
                    };
                    let answer = arithmetic(*native, number(a)?, number(b)?)?;
                    Some(Value::Number(answer).into())
                }
                _ => None,
            },
            _ => None,
        }
    }

    fn field_of(&self, record: &Value<'p>, field: FieldId) -> Result<Thunk<'p>, Stuck> {
        let found = match record {
            Value::Record(record) => record.fields.iter().find(|(own, _)| *own == field),
            other => {
                let name = &self.program.fields[field];
                return stuck(format!("{} has no field {name}", kind(other)));
            }
        };
        match found {
            Some((_, thunk)) => Ok(thunk.clone()),
            None => stuck(format!("a record without {}", self.program.fields[field])),
        }
    }

    fn constant(&self, id: DefinitionId) -> Answer<'p> {
        if let Some(value) = self.constants[id].get() {
            return Ok(value.clone());
        }
        let next = self.enter(Callee::Definition(id), Vec::new())?;
        let value = self.finish(next)?;
        Ok(self.constants[id].get_or_init(|| value).clone())
    }

    fn apply(&self, value: Value<'p>, mut more: Vec<Thunk<'p>>) -> Result<Next<'p>, Stuck> {
        match value {
            Value::Function(function) => {
                let mut arguments = function.arguments.clone();
                arguments.append(&mut more);
                self.supply(function.callee.clone(), arguments)
            }
            other => stuck(format!("{} is applied", kind(&other))),
        }
    }

    fn arity(&self, callee: &Callee<'p>) -> usize {
        match callee {
            Callee::Definition(id) => self.program.definitions[*id].arity,
            Callee::Native(native) => native.arity(),
            Callee::Lambda(lambda, _) => lambda.arity,
        }
    }

    /// Calls with as many arguments as there are: too few make a function,
    /// those beyond the arity go to what the call gives.
    fn supply(&self, callee: Callee<'p>, mut arguments: Vec<Thunk<'p>>) -> Result<Next<'p>, Stuck> {
        let arity = self.arity(&callee);
        if arguments.len() < arity {
            return Ok(Next::Done(function(callee, arguments)));
        }
        let beyond = arguments.split_off(arity);
        if beyond.is_empty() {
            return self.enter(callee, arguments);
        }
        let value = match (&callee, arity) {
            (Callee::Definition(id), 0) => self.constant(*id)?,
            _ => self.finish(self.enter(callee, arguments)?)?,
        };
        self.apply(value, beyond)
    }

    /// Calls with exactly the arguments that are needed.
    fn enter(&self, callee: Callee<'p>, arguments: Vec<Thunk<'p>>) -> Result<Next<'p>, Stuck> {
        match callee {
            Callee::Native(native) => Ok(Next::Done(self.native(native, &arguments)?)),
            Callee::Lambda(lambda, outer) => {
                let frame = Frame {
                    slots: arguments,
                    outer: Some(outer),
                };
                Ok(Next::Body(&lambda.body, Rc::new(frame)))
            }
            Callee::Definition(id) => match &self.remembered[id] {
                Some(last) => Ok(Next::Done(self.recall(id, last, arguments)?)),
                None => self.select(id, arguments),
            },
        }
    }

    fn recall(&self, id: DefinitionId, last: &Memory<'p>, arguments: Vec<Thunk<'p>>) -> Answer<'p> {
        let list = self.numbers(self.force(&arguments[0])?)?;
        if let Some((known, value)) = &*last.borrow() {
            if *known == list {
                return Ok(value.clone());
            }
        }
        let value = self.finish(self.select(id, arguments)?)?;
        last.replace(Some((list, value.clone())));
        Ok(value)
    }

    /// The first clause that matches.
    fn select(&self, id: DefinitionId, arguments: Vec<Thunk<'p>>) -> Result<Next<'p>, Stuck> {
        let definition = &self.program.definitions[id];
        for Clause { patterns, body } in &definition.clauses {
            let mut slots = Vec::with_capacity(patterns.len());
            if self.all_match(patterns, &arguments, &mut slots)? {
                let frame = Frame { slots, outer: None };
                return Ok(Next::Body(body, Rc::new(frame)));
            }
        }
        stuck(format!("no clause of {} matches", definition.name))
    }

    fn all_match(
        &self,
        patterns: &[Pattern],
        arguments: &[Thunk<'p>],
        slots: &mut Vec<Thunk<'p>>,
    ) -> Result<bool, Stuck> {
        for (pattern, argument) in patterns.iter().zip(arguments) {
            if !self.matches(pattern, argument, slots)? {
                return Ok(false);
            }
        }
        Ok(patterns.len() == arguments.len())
    }

    fn matches(
        &self,
        pattern: &Pattern,
        thunk: &Thunk<'p>,
        slots: &mut Vec<Thunk<'p>>,
    ) -> Result<bool, Stuck> {
        if let Pattern::Variable = pattern {
            slots.push(thunk.clone());
            return Ok(true);
        }
        let value = self.force(thunk)?;
        match (pattern, &value) {
            (Pattern::Number(wanted), Value::Number(number)) => Ok(number == wanted),
            (Pattern::Suc(before), Value::Number(number)) => match number.checked_sub(1) {
                Some(number) => self.matches(before, &Value::Number(number).into(), slots),
                None => Ok(false),
            },
            (Pattern::Truth(wanted), Value::Truth(truth)) => Ok(truth == wanted),
            (Pattern::Empty, Value::List(list)) => Ok(matches!(list, List::Empty)),
            (Pattern::Cons(head, tail), Value::List(list)) => match uncons(list) {
                Some((first, rest)) => {
                    Ok(self.matches(head, &first, slots)? && self.matches(tail, &rest, slots)?)
                }
                None => Ok(false),
            },
            (Pattern::Constructor(wanted, patterns), Value::Constant(constructor)) => {
                Ok(constructor == wanted && patterns.is_empty())
            }
            (Pattern::Constructor(wanted, patterns), Value::Variant(variant)) => {
                Ok(variant.constructor == *wanted
                    && self.all_match(patterns, &variant.arguments, slots)?)
            }
            _ => stuck(format!("{pattern:?} is matched with {}", kind(&value))),
        }
    }
}

fn function<'p>(callee: Callee<'p>, arguments: Vec<Thunk<'p>>) -> Value<'p> {
    Value::Function(Rc::new(Function { callee, arguments }))
}

/// What a value is, for messages.
pub(crate) fn kind(value: &Value<'_>) -> &'static str {
    match value {
        Value::Number(_) => "a number",
        Value::Truth(_) => "a truth value",
        Value::Character(_) => "a character",
        Value::List(_) => "a list",
        Value::Constant(_) | Value::Variant(_) => "a constructor",
        Value::Record(_) => "a record",
        Value::Function(_) => "a function",
    }
}
