//! The library functions on values: what [`crate::library`] names, computed.

use crate::evaluator::{kind, stuck, Answer, Evaluator, Stuck};
use crate::library::{arithmetic, Native};
use crate::values::{List, Thunk, Value};

impl<'p> Evaluator<'p> {
    /// A library function with all its arguments.
    pub(crate) fn native(&self, native: Native, arguments: &[Thunk<'p>]) -> Answer<'p> {
        let value = |at: usize| self.force(&arguments[at]);
        let number = |at: usize| self.number(value(at)?);
        let truth = |at: usize| self.truth(value(at)?);
        let list = |at: usize| self.list(value(at)?);
        Ok(match native {
            Native::Zero => Value::Number(0),
            Native::Suc => Value::Number(self.calculate(Native::Add, number(0)?, 1)?),
            Native::Add
            | Native::Subtract
            | Native::Multiply
            | Native::Divide
            | Native::Remainder
            | Native::Minimum => Value::Number(self.calculate(native, number(0)?, number(1)?)?),
            Native::Equal => Value::Truth(number(0)? == number(1)?),
            Native::AtMost => Value::Truth(number(0)? <= number(1)?),
            Native::Below => Value::Truth(number(0)? < number(1)?),
            Native::True => Value::Truth(true),
            Native::False => Value::Truth(false),
            Native::Choose => return if truth(0)? { value(1) } else { value(2) },
            Native::Not => Value::Truth(!truth(0)?),
            Native::And => Value::Truth(truth(0)? && truth(1)?),
            Native::Or => Value::Truth(truth(0)? || truth(1)?),
            Native::Xor => Value::Truth(truth(0)? != truth(1)?),
            Native::Empty => Value::List(List::Empty),
            Native::Cons => Value::List(List::cell(arguments[0].clone(), arguments[1].clone())),
            Native::Append => Value::List(self.append(list(0)?, &arguments[1])?),
            Native::Length => Value::Number(self.length(list(0)?)?),
            Native::Element => return self.element(list(0)?, number(1)?, &arguments[2]),
            Native::ElementOrZero => {
                let none = Value::Number(0).into();
                return self.element(list(0)?, number(1)?, &none);
            }
            Native::Take => Value::List(self.take(number(0)?, list(1)?)?),
            Native::Drop => Value::List(self.drop(number(0)?, list(1)?)?),
            Native::Set => Value::List(self.set(list(0)?, number(1)?, &arguments[2])?),
            Native::Replicate => Value::List(self.replicate(number(0)?, &arguments[1])?),
            Native::Code => match value(0)? {
                Value::Character(character) => Value::Number(character.into()),
                other => return stuck(format!("the code of {}", kind(&other))),
            },
        })
    }

    fn calculate(&self, native: Native, a: u64, b: u64) -> Result<u64, Stuck> {
        match arithmetic(native, a, b) {
            Some(number) => Ok(number),
            None => stuck(format!("{native:?} of {a} and {b} is too large")),
        }
    }

    fn length(&self, mut list: List<'p>) -> Result<u64, Stuck> {
        let mut length = 0;
        loop {
            match list {
                List::Empty => return Ok(length),
                List::Numbers(numbers) => return Ok(length + numbers.as_slice().len() as u64),
                List::Cell(cell) => {
                    length += 1;
                    list = self.list(self.force(&cell.tail)?)?;
                }
            }
        }
    }

    fn drop(&self, count: u64, mut list: List<'p>) -> Result<List<'p>, Stuck> {
        let mut left = count;
        while left > 0 {
            match list {
                List::Empty => return Ok(List::Empty),
                List::Numbers(numbers) => {
                    let length = numbers.as_slice().len();
                    return Ok(numbers.part(clamp(left, length), length));
                }
                List::Cell(cell) => {
                    left -= 1;
                    list = self.list(self.force(&cell.tail)?)?;
                }
            }
        }
        Ok(list)
    }

    fn element(&self, list: List<'p>, at: u64, default: &Thunk<'p>) -> Answer<'p> {
        match uncons(&self.drop(at, list)?) {
            Some((head, _)) => self.force(&head),
            None => self.force(default),
        }
    }

    /// The first cells of a list, at most `count`, and what comes behind: a
    /// list in one piece or none, or the rest where `count` is used up.
    fn cells(&self, count: u64, mut list: List<'p>) -> Result<(Vec<Thunk<'p>>, List<'p>), Stuck> {
        let mut heads = Vec::new();
        while (heads.len() as u64) < count {
            let List::Cell(cell) = &list else { break };
            heads.push(cell.head.clone());
            let tail = self.force(&cell.tail)?;
            list = self.list(tail)?;
        }
        Ok((heads, list))
    }

    fn take(&self, count: u64, list: List<'p>) -> Result<List<'p>, Stuck> {
        let (heads, rest) = self.cells(count, list)?;
        let left = count - heads.len() as u64;
        let rest = match rest {
            List::Numbers(numbers) => {
                let length = numbers.as_slice().len();
                numbers.part(0, clamp(left, length))
            }
            _ => List::Empty,
        };
        Ok(prepend(heads, Value::List(rest).into()))
    }

    fn set(&self, list: List<'p>, at: u64, element: &Thunk<'p>) -> Result<List<'p>, Stuck> {
        let (heads, rest) = self.cells(at, list)?;
        let left = at - heads.len() as u64;
        let rest = match rest {
            List::Empty => List::Empty,
            List::Cell(cell) => List::cell(element.clone(), cell.tail.clone()),
            List::Numbers(numbers) => {
                let length = numbers.as_slice().len();
                let place = clamp(left, length);
                if place < length {
                    let mut numbers = numbers.as_slice().to_vec();
                    numbers[place] = self.number(self.force(element)?)?;
                    List::numbers(numbers)
                } else {
                    List::Numbers(numbers)
                }
            }
        };
        Ok(prepend(heads, Value::List(rest).into()))
    }

    fn append(&self, left: List<'p>, right: &Thunk<'p>) -> Result<List<'p>, Stuck> {
        let (heads, rest) = self.cells(u64::MAX, left)?;
        let tail = match rest {
            List::Numbers(first) => {
                let mut numbers = first.as_slice().to_vec();
                numbers.extend(self.numbers(self.force(right)?)?);
                Value::List(List::numbers(numbers)).into()
            }
            _ if heads.is_empty() => return self.list(self.force(right)?),
            _ => right.clone(),
        };
        Ok(prepend(heads, tail))
    }

    fn replicate(&self, count: u64, element: &Thunk<'p>) -> Result<List<'p>, Stuck> {
        let count = usize::try_from(count).expect("a list that fits in memory");
        match self.force(element)? {
            Value::Number(number) => Ok(List::numbers(vec![number; count])),
            _ => Ok(prepend(
                vec![element.clone(); count],
                Value::List(List::Empty).into(),
            )),
        }
    }
}

fn clamp(count: u64, length: usize) -> usize {
    usize::try_from(count).map_or(length, |count| count.min(length))
}

/// A quoted text is the list of its characters.
pub(crate) fn characters<'p>(text: &str) -> Value<'p> {
    let heads = text.chars().map(|c| Value::Character(c).into()).collect();
    Value::List(prepend(heads, Value::List(List::Empty).into()))
}

/// The elements in front of a list. Where there are none the list is known:
/// only then is it looked at.
fn prepend<'p>(heads: Vec<Thunk<'p>>, tail: Thunk<'p>) -> List<'p> {
    let join = |tail, head| Value::List(List::cell(head, tail)).into();
    match heads.into_iter().rev().fold(tail, join) {
        Thunk::Known(Value::List(list)) => list,
        _ => unreachable!("a list that is not known"),
    }
}

pub(crate) fn uncons<'p>(list: &List<'p>) -> Option<(Thunk<'p>, Thunk<'p>)> {
    match list {
        List::Empty => None,
        List::Numbers(numbers) => {
            let slice = numbers.as_slice();
            let rest = numbers.part(1, slice.len());
            Some((Value::Number(slice[0]).into(), Value::List(rest).into()))
        }
        List::Cell(cell) => Some((cell.head.clone(), cell.tail.clone())),
    }
}
