//! A definition file, cut into its declarations.
//!
//! Signatures, types and laws are passed over. The clauses of a definition are
//! kept as tokens: they are parsed when something asks for the definition, so
//! a file may hold whatever else it likes.

use crate::lexer::{lines, Fault, Line, Token};
use std::collections::HashMap;

/// `original as name`, from the module of a path.
#[derive(Clone, Debug)]
pub struct Import {
    pub module: Vec<String>,
    pub original: String,
}

/// The tokens of one clause, with the line that it begins on.
#[derive(Clone, Debug)]
pub struct RawClause {
    pub line: usize,
    pub tokens: Vec<Token>,
}

#[derive(Clone, Debug, Default)]
pub struct RawDefinition {
    pub clauses: Vec<RawClause>,
    /// The section that it stands in, with the section's parameters.
    pub section: Option<Section>,
}

#[derive(Clone, Debug, PartialEq)]
pub struct Section {
    pub line: usize,
    pub parameters: Vec<String>,
}

#[derive(Debug, Default)]
pub struct Source {
    pub imports: HashMap<String, Import>,
    pub constructors: Vec<String>,
    pub definitions: HashMap<String, RawDefinition>,
}

impl Source {
    pub fn read(text: &str) -> Result<Source, Fault> {
        let mut source = Source::default();
        source.declare(&lines(text)?, None)?;
        Ok(source)
    }

    fn declare(&mut self, lines: &[Line], section: Option<&Section>) -> Result<(), Fault> {
        for item in items(lines) {
            self.item(item, section)?;
        }
        Ok(())
    }

    fn item(&mut self, item: &[Line], section: Option<&Section>) -> Result<(), Fault> {
        let tokens: Vec<Token> = item.iter().flat_map(|l| l.tokens.clone()).collect();
        let line = item[0].number;
        let first = match tokens.iter().find(|token| !token.is_name("pub")) {
            Some(Token::Name(first)) => first.clone(),
            _ => return Ok(()),
        };
        match first.as_str() {
            "use" => self.import(&tokens),
            "module" => {
                if section.is_some() {
                    let message = "a section within a section is not read".to_string();
                    return Err(Fault { line, message });
                }
                let (header, body) = header_and_body(item);
                let parameters = parameters(&header);
                self.declare(body, Some(&Section { line, parameters }))?;
            }
            "data" => {
                for constructors in items(header_and_body(item).1) {
                    let names = names_before_colon(&constructors[0].tokens);
                    self.constructors.extend(names);
                }
            }
            "mod" | "record" | "ruleset" | "unfolding" | "infix" | "infixl" | "infixr" => (),
            _ if is_signature(&tokens) => (),
            _ => {
                let definition = self.definitions.entry(first).or_default();
                definition.section = section.cloned();
                definition.clauses.push(RawClause { line, tokens });
            }
        }
        Ok(())
    }

    /// `use a.b.{c, d as e}`. A `use` that opens no names brings none.
    fn import(&mut self, tokens: &[Token]) {
        let mut module = Vec::new();
        let mut names = Vec::new();
        let mut inside = false;
        for token in tokens.iter().skip_while(|t| !t.is_name("use")).skip(1) {
            match token {
                Token::OpenBrace => inside = true,
                Token::Name(name) if inside => names.push(name.clone()),
                Token::Comma => self.import_one(&module, &std::mem::take(&mut names)),
                Token::Name(part) | Token::Field(part) => module.push(part.clone()),
                _ => (),
            }
        }
        self.import_one(&module, &names);
    }

    fn import_one(&mut self, module: &[String], names: &[String]) {
        let (original, name) = match names {
            [name] => (name, name),
            [original, renamed, name] if renamed == "as" => (original, name),
            _ => return,
        };
        let import = Import {
            module: module.to_vec(),
            original: original.clone(),
        };
        self.imports.insert(name.clone(), import);
    }
}

/// Groups lines: one that is indented deeper than the first goes on with it.
fn items(lines: &[Line]) -> Vec<&[Line]> {
    let mut items = Vec::new();
    let mut rest = lines;
    while let Some((first, more)) = rest.split_first() {
        let deeper = more
            .iter()
            .take_while(|line| line.indentation > first.indentation);
        let (item, after) = rest.split_at(1 + deeper.count());
        items.push(item);
        rest = after;
    }
    items
}

/// What stands up to `where`, and the lines behind it.
fn header_and_body(item: &[Line]) -> (Vec<Token>, &[Line]) {
    let ends = |line: &Line| line.tokens.last().is_some_and(|t| t.is_name("where"));
    let length = item.iter().position(ends).map_or(item.len(), |at| at + 1);
    let (header, body) = item.split_at(length);
    let tokens = header.iter().flat_map(|l| l.tokens.clone()).collect();
    (tokens, body)
}

/// The names of the explicit parameters, `(a b : T)`; implicit ones are types.
fn parameters(header: &[Token]) -> Vec<String> {
    let mut parameters = Vec::new();
    let mut depth = 0;
    for (at, token) in header.iter().enumerate() {
        match token {
            Token::Open => {
                if depth == 0 {
                    parameters.extend(names_before_colon(&header[at + 1..]));
                }
                depth += 1;
            }
            Token::Close => depth -= 1,
            _ => (),
        }
    }
    parameters
}

fn names_before_colon(tokens: &[Token]) -> Vec<String> {
    let names = tokens.iter().map_while(|token| match token {
        Token::Name(name) if name != ":" => Some(name.clone()),
        _ => None,
    });
    names.collect()
}

/// A signature has its colon before any `=`; a clause has no colon there,
/// since patterns carry no types.
fn is_signature(tokens: &[Token]) -> bool {
    let mut marks = tokens
        .iter()
        .filter(|token| token.is_name(":") || token.is_name("="));
    marks.next().is_some_and(|token| token.is_name(":"))
}

#[cfg(test)]
mod tests {
    use super::*;

    #[test]
    fn imports_sections_and_constructors_are_found() {
        let text = "use a.b.c.{d, ◌∷◌ as ◌∷ᴸ◌}\n\
                    -- a remark\n\
                    pub data Spot : Type 0 where\n  last : Spot\n  after before : ℕ → Spot\n\
                    module _ {A : Type 0} (x y : ℕ) (z : List ℕ) where\n  \
                    abbrev pub f : ℕ → ℕ\n  f k =\n      k + x\n\
                    g zero = 1\ng (suc n) = 2\n";
        let source = Source::read(text).unwrap();
        assert_eq!(source.imports["d"].module, ["a", "b", "c"]);
        assert_eq!(source.imports["◌∷ᴸ◌"].original, "◌∷◌");
        assert_eq!(source.constructors, ["last", "after", "before"]);
        let section = source.definitions["f"].section.as_ref().unwrap();
        assert_eq!(section.parameters, ["x", "y", "z"]);
        assert_eq!(source.definitions["f"].clauses.len(), 1);
        assert_eq!(source.definitions["g"].clauses.len(), 2);
    }

    #[test]
    fn what_only_the_prover_needs_is_passed_over() {
        let text = "pub record Rule : Type 0 where\n  pub asked : ℕ → Bool\n\
                    abbrev pub chosen : {A : Type 0} → ℕ → List (ℕ × A) → A → A\n\
                    chosen n [] other = other\n\
                    unfoldable pub opened : Unit {0}\nunfolding chosen\n    outcome\nopened = tt\n";
        let source = Source::read(text).unwrap();
        let mut names: Vec<&String> = source.definitions.keys().collect();
        names.sort();
        assert_eq!(names, ["chosen", "opened"]);
        assert_eq!(source.definitions["chosen"].clauses.len(), 1);
        assert_eq!(source.definitions["opened"].clauses.len(), 1);
    }
}
