//! The tokens of a clause, read as an expression on each side of its `=`.
//!
//! A left side is read as an expression too: `f zero (x ∷ xs)` has the form of
//! an application, and names are told apart later, where the scope is known.

use crate::lexer::Token;

#[derive(Clone, Debug, PartialEq)]
pub enum Syntax {
    Name(String),
    Number(u64),
    Text(String),
    Apply(Box<Syntax>, Vec<Syntax>),
    Lambda(Vec<String>, Box<Syntax>),
    Record(Vec<(String, Syntax)>),
    Project(Box<Syntax>, String),
}

/// How an infix operator binds: the higher the strength, the tighter.
#[derive(Clone, Copy, Debug, PartialEq)]
pub struct Fixity {
    pub strength: u32,
    pub side: Side,
}

#[derive(Clone, Copy, Debug, PartialEq)]
pub enum Side {
    Left,
    Right,
    /// Next to one of its own strength it needs parentheses.
    Neither,
}

/// The one operator whose parts stand around its operands.
pub const CHOICE: &str = "if◌then◌else◌";

/// The two sides of a clause. `fixity` knows the operators in scope by their
/// whole names, as `◌+◌`.
pub fn clause(
    tokens: &[Token],
    fixity: &dyn Fn(&str) -> Option<Fixity>,
) -> Result<(Syntax, Syntax), String> {
    let equals = tokens
        .iter()
        .position(|token| token.is_name("="))
        .ok_or("a clause without =")?;
    let side = |tokens| {
        let mut parser = Parser {
            tokens,
            at: 0,
            fixity,
        };
        let syntax = parser.expression(0)?;
        match parser.peek() {
            None => Ok(syntax),
            Some(token) => Err(format!("{token:?} is one too many")),
        }
    };
    Ok((side(&tokens[..equals])?, side(&tokens[equals + 1..])?))
}

struct Parser<'t> {
    tokens: &'t [Token],
    at: usize,
    fixity: &'t dyn Fn(&str) -> Option<Fixity>,
}

impl Parser<'_> {
    fn peek(&self) -> Option<&Token> {
        self.tokens.get(self.at)
    }

    fn next(&mut self) -> Option<Token> {
        let token = self.peek().cloned();
        self.at += 1;
        token
    }

    fn expect(&mut self, wanted: Token) -> Result<(), String> {
        match self.next() {
            Some(token) if token == wanted => Ok(()),
            other => Err(format!("{wanted:?} expected, {other:?} found")),
        }
    }

    /// The operator that comes next, with its fixity.
    fn operator(&self) -> Option<(String, Fixity)> {
        match self.peek()? {
            Token::Name(name) => {
                let operator = format!("◌{name}◌");
                let fixity = (self.fixity)(&operator)?;
                Some((operator, fixity))
            }
            _ => None,
        }
    }

    /// Whether `if`, `then` or `else` comes next, where that is no plain name.
    fn part_of_choice(&self) -> bool {
        let parts = ["if", "then", "else"];
        let is_part = |token: &Token| parts.iter().any(|part| token.is_name(part));
        self.peek().is_some_and(is_part) && (self.fixity)(CHOICE).is_some()
    }

    /// Operands joined by operators of at least the given strength.
    fn expression(&mut self, least: u32) -> Result<Syntax, String> {
        if self.part_of_choice() {
            return self.choice();
        }
        let mut left = self.operand()?;
        while let Some((operator, Fixity { strength, side })) = self.operator() {
            if strength < least {
                break;
            }
            self.at += 1;
            let right = self.expression(match side {
                Side::Left | Side::Neither => strength + 1,
                Side::Right => strength,
            })?;
            // Two operators of one strength that lean to different sides have
            // no meaning next to each other.
            if let Some((other, next)) = self.operator() {
                let alike = next.side == side && side != Side::Neither;
                if next.strength == strength && !alike {
                    return Err(format!("{operator} and {other} need parentheses"));
                }
            }
            left = Syntax::Apply(Box::new(Syntax::Name(operator)), vec![left, right]);
        }
        Ok(left)
    }

    /// `if a then b else c`, the last part as far to the right as it can be.
    fn choice(&mut self) -> Result<Syntax, String> {
        let mut operands = Vec::new();
        for part in ["if", "then", "else"] {
            self.expect(Token::Name(part.to_string()))?;
            operands.push(self.expression(0)?);
        }
        let operator = Syntax::Name(CHOICE.to_string());
        Ok(Syntax::Apply(Box::new(operator), operands))
    }

    fn operand(&mut self) -> Result<Syntax, String> {
        let head = self.atom()?.ok_or_else(|| match self.peek() {
            Some(token) => format!("an expression expected, {token:?} found"),
            None => "an expression expected, nothing found".to_string(),
        })?;
        let mut arguments = Vec::new();
        while let Some(argument) = self.atom()? {
            arguments.push(argument);
        }
        Ok(apply(head, arguments))
    }

    /// What stands as one argument, if one stands here.
    fn atom(&mut self) -> Result<Option<Syntax>, String> {
        if self.operator().is_some() || self.part_of_choice() {
            return Ok(None);
        }
        let before = self.at;
        let atom = match self.next() {
            Some(Token::Name(name)) if name == "record" => self.record()?,
            Some(Token::Name(name)) => self.projected(Syntax::Name(name)),
            Some(Token::Number(number)) => Syntax::Number(number),
            Some(Token::Text(text)) => Syntax::Text(text),
            Some(Token::Open) => {
                let inside = self.closed()?;
                self.projected(inside)
            }
            Some(Token::Lambda) => self.lambda()?,
            _ => {
                self.at = before;
                return Ok(None);
            }
        };
        Ok(Some(atom))
    }

    /// A name, or what stood in parentheses, with the fields right behind it.
    fn projected(&mut self, mut syntax: Syntax) -> Syntax {
        while let Some(Token::Field(field)) = self.peek() {
            syntax = Syntax::Project(Box::new(syntax), field.clone());
            self.at += 1;
        }
        syntax
    }

    /// What stands in parentheses, behind the opening one. A pair is the
    /// record of its fields 0 and 1.
    fn closed(&mut self) -> Result<Syntax, String> {
        let first = self.expression(0)?;
        let inside = if self.peek() == Some(&Token::Comma) {
            self.at += 1;
            let second = self.expression(0)?;
            Syntax::Record(vec![("0".to_string(), first), ("1".to_string(), second)])
        } else {
            first
        };
        self.expect(Token::Close)?;
        Ok(inside)
    }

    /// `λ x y. body`, the body as far to the right as it can be.
    fn lambda(&mut self) -> Result<Syntax, String> {
        let mut variables = Vec::new();
        loop {
            match self.next() {
                Some(Token::Name(name)) => variables.push(name),
                Some(Token::Dot) => break,
                other => return Err(format!("{other:?} among the variables of a λ")),
            }
        }
        let body = self.expression(0)?;
        Ok(Syntax::Lambda(variables, Box::new(body)))
    }

    /// `{ a = e; b = e }`, behind the word `record`.
    fn record(&mut self) -> Result<Syntax, String> {
        self.expect(Token::OpenBrace)?;
        let mut fields = Vec::new();
        loop {
            let field = match self.next() {
                Some(Token::Name(name)) => name,
                Some(Token::Number(number)) => number.to_string(),
                Some(Token::CloseBrace) => return Ok(Syntax::Record(fields)),
                other => return Err(format!("{other:?} where a field should be")),
            };
            self.expect(Token::Name("=".to_string()))?;
            fields.push((field, self.expression(0)?));
            match self.next() {
                Some(Token::Semicolon) => (),
                Some(Token::CloseBrace) => return Ok(Syntax::Record(fields)),
                other => return Err(format!("{other:?} behind a field")),
            }
        }
    }
}

fn apply(head: Syntax, arguments: Vec<Syntax>) -> Syntax {
    if arguments.is_empty() {
        head
    } else {
        Syntax::Apply(Box::new(head), arguments)
    }
}

#[cfg(test)]
mod tests {
    use super::*;
    use crate::lexer::lines;
    use crate::library::fixity;

    fn right_side(text: &str) -> String {
        let tokens = lines(&format!("f = {text}")).unwrap().remove(0).tokens;
        show(&clause(&tokens, &fixity).unwrap().1)
    }

    fn is_refused(text: &str) -> bool {
        let tokens = lines(&format!("f = {text}")).unwrap().remove(0).tokens;
        clause(&tokens, &fixity).is_err()
    }

    /// The expression with all its parentheses.
    fn show(syntax: &Syntax) -> String {
        match syntax {
            Syntax::Name(name) => name.clone(),
            Syntax::Number(number) => number.to_string(),
            Syntax::Text(text) => format!("{text:?}"),
            Syntax::Apply(head, arguments) => {
                let arguments: Vec<String> = arguments.iter().map(show).collect();
                format!("({} {})", show(head), arguments.join(" "))
            }
            Syntax::Lambda(variables, body) => {
                format!("(λ {}. {})", variables.join(" "), show(body))
            }
            Syntax::Record(fields) => {
                let show = |(name, value): &(String, Syntax)| format!("{name} = {}", show(value));
                let fields: Vec<String> = fields.iter().map(show).collect();
                format!("{{{}}}", fields.join("; "))
            }
            Syntax::Project(from, field) => format!("({}).{field}", show(from)),
        }
    }

    #[test]
    fn a_projection_takes_what_it_stands_behind() {
        assert_eq!(
            right_side("(path_of e k).master.0 + h r.f (g x).a"),
            "(◌+◌ (((path_of e k)).master).0 (h (r).f ((g x)).a))"
        );
    }

    #[test]
    fn operators_bind_as_in_the_toolchain() {
        assert_eq!(right_side("a - b - c"), "(◌-◌ (◌-◌ a b) c)");
        assert_eq!(
            right_side("v / 256 % 256 ∷ a * 2 ∷ []"),
            "(◌∷◌ (◌%◌ (◌/◌ v 256) 256) (◌∷◌ (◌*◌ a 2) []))"
        );
        assert_eq!(
            right_side("not a && b || c && d"),
            "(◌||◌ (◌&&◌ (not a) b) (◌&&◌ c d))"
        );
        assert_eq!(right_side("a + b ∷ c"), "(◌+◌ a (◌∷◌ b c))");
        assert_eq!(right_side("a + b == c && d"), "(◌&&◌ (◌==◌ (◌+◌ a b) c) d)");
        assert!(is_refused("a == b == c"));
    }

    #[test]
    fn a_choice_reaches_as_far_as_it_can() {
        assert_eq!(
            right_side("if f a && b then c ∷ d else if e then g else h + 1"),
            "(if◌then◌else◌ (◌&&◌ (f a) b) (◌∷◌ c d) (if◌then◌else◌ e g (◌+◌ h 1)))"
        );
        assert_eq!(
            right_side("(if a then b else c) ∷ d"),
            "(◌∷◌ (if◌then◌else◌ a b c) d)"
        );
        assert!(is_refused("if a then b"));
    }

    #[test]
    fn a_pair_is_a_record_of_its_two_sides() {
        assert_eq!(
            right_side("f ((a ∷ [], (g x).b) ∷ rows) row.1"),
            "(f (◌∷◌ {0 = (◌∷◌ a []); 1 = ((g x)).b} rows) (row).1)"
        );
    }

    #[test]
    fn a_lambda_reaches_to_the_closing_parenthesis() {
        assert_eq!(
            right_side("f (λ k. g k && h) n"),
            "(f (λ k. (◌&&◌ (g k) h)) n)"
        );
    }
}
