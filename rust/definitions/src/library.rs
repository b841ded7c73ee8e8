//! The library functions that the definitions use: numbers, truth values and
//! lists. Everything else is evaluated from the definition files.
//!
//! They are lawful shortcuts. The libraries' own text defines each of them
//! clause by clause, and they answer the same: subtraction stops at 0, x / 0
//! is 0, x % 0 is x, an element past the end of a list is the default, or 0
//! for `slice_index`, and a `set` past the end changes nothing.

use crate::parser::{Fixity, Side, CHOICE};

#[derive(Clone, Copy, Debug, PartialEq)]
pub enum Native {
    Zero,
    Suc,
    Add,
    Subtract,
    Multiply,
    Divide,
    Remainder,
    Minimum,
    Equal,
    AtMost,
    Below,
    True,
    False,
    Choose,
    Not,
    And,
    Or,
    Xor,
    Empty,
    Cons,
    Append,
    Length,
    Element,
    ElementOrZero,
    Take,
    Drop,
    Set,
    Replicate,
    Code,
}

impl Native {
    pub fn arity(self) -> usize {
        use Native::*;
        match self {
            Zero | True | False | Empty => 0,
            Suc | Not | Length | Code => 1,
            Add | Subtract | Multiply | Divide | Remainder | Minimum => 2,
            Equal | AtMost | Below | And | Or | Xor => 2,
            Cons | Append | Take | Drop | Replicate | ElementOrZero => 2,
            Choose | Element | Set => 3,
        }
    }

    /// Whether it turns two numbers into a number.
    pub fn is_arithmetic(self) -> bool {
        use Native::*;
        matches!(
            self,
            Add | Subtract | Multiply | Divide | Remainder | Minimum
        )
    }
}

/// The function of a name in the modules of the library.
pub fn native(name: &str) -> Option<Native> {
    use Native::*;
    Some(match name {
        "zero" => Zero,
        "suc" => Suc,
        "◌+◌" => Add,
        "◌-◌" => Subtract,
        "◌*◌" => Multiply,
        "◌/◌" => Divide,
        "◌%◌" => Remainder,
        "min" => Minimum,
        "eqb" | "nat_eq" | "◌==◌" => Equal,
        "leb" | "nat_le" => AtMost,
        "ltb" | "nat_lt" => Below,
        "true" => True,
        "false" => False,
        "cond" | CHOICE => Choose,
        "not" => Not,
        "◌&&◌" => And,
        "◌||◌" => Or,
        "xor" => Xor,
        "[]" => Empty,
        "◌∷◌" => Cons,
        "◌++◌" => Append,
        "length" => Length,
        "get_or" | "slice_index_or" => Element,
        "slice_index" => ElementOrZero,
        "take" => Take,
        "drop" => Drop,
        "set" | "slice_set" => Set,
        "replicate" => Replicate,
        "code" => Code,
        _ => return None,
    })
}

/// The fixity that the library gives an operator.
pub fn fixity(operator: &str) -> Option<Fixity> {
    let (strength, side) = match operator {
        "◌*◌" | "◌/◌" | "◌%◌" => (70, Side::Left),
        "◌∷◌" => (67, Side::Right),
        "◌+◌" | "◌-◌" | "◌++◌" => (65, Side::Left),
        "◌==◌" => (40, Side::Neither),
        "◌&&◌" => (35, Side::Left),
        "◌||◌" => (30, Side::Left),
        CHOICE => (5, Side::Neither),
        _ => return None,
    };
    Some(Fixity { strength, side })
}

/// An arithmetic function on two numbers; `None` where the answer is too
/// large to be held. The definitions never come near such a number.
pub fn arithmetic(native: Native, a: u64, b: u64) -> Option<u64> {
    match native {
        Native::Add => a.checked_add(b),
        Native::Subtract => Some(a.saturating_sub(b)),
        Native::Multiply => a.checked_mul(b),
        Native::Divide => Some(a.checked_div(b).unwrap_or(0)),
        Native::Remainder => Some(a.checked_rem(b).unwrap_or(a)),
        Native::Minimum => Some(a.min(b)),
        _ => None,
    }
}

#[cfg(test)]
mod tests {
    use super::*;

    #[test]
    fn arithmetic_at_its_edges() {
        assert_eq!(arithmetic(Native::Subtract, 2, 3), Some(0));
        assert_eq!(arithmetic(Native::Divide, 7, 0), Some(0));
        assert_eq!(arithmetic(Native::Remainder, 7, 0), Some(7));
        assert_eq!(arithmetic(Native::Remainder, 7, 4), Some(3));
        assert_eq!(arithmetic(Native::Add, u64::MAX, 1), None);
    }
}
