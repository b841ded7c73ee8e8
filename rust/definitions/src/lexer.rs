//! Lines of a definition file, cut into tokens.
//!
//! Layout is by indentation, so the tokens stay grouped by line; a line that
//! is blank or only a comment disappears.

use std::fmt;

#[derive(Clone, Debug, PartialEq)]
pub enum Token {
    /// A name, an operator or a reserved word: whatever stands between blanks
    /// and punctuation. `[]` is a name too.
    Name(String),
    Number(u64),
    Text(String),
    /// `.field` right behind a name or a closing parenthesis.
    Field(String),
    /// The dot behind the variables of a `λ`.
    Dot,
    Lambda,
    Open,
    Close,
    OpenBrace,
    CloseBrace,
    Semicolon,
    Comma,
}

impl Token {
    pub fn is_name(&self, name: &str) -> bool {
        matches!(self, Token::Name(own) if own == name)
    }
}

/// One line that holds tokens.
#[derive(Clone, Debug)]
pub struct Line {
    pub number: usize,
    pub indentation: usize,
    pub tokens: Vec<Token>,
}

/// What is wrong with a file, and on which line.
#[derive(Debug)]
pub struct Fault {
    pub line: usize,
    pub message: String,
}

impl fmt::Display for Fault {
    fn fmt(&self, out: &mut fmt::Formatter<'_>) -> fmt::Result {
        write!(out, "line {}: {}", self.line, self.message)
    }
}

pub fn lines(text: &str) -> Result<Vec<Line>, Fault> {
    let mut lines = Vec::new();
    for (index, text) in text.lines().enumerate() {
        let number = index + 1;
        let indentation = text.chars().take_while(|c| *c == ' ').count();
        let tokens = tokens(text).map_err(|message| Fault {
            line: number,
            message,
        })?;
        if !tokens.is_empty() {
            lines.push(Line {
                number,
                indentation,
                tokens,
            });
        }
    }
    Ok(lines)
}

fn tokens(text: &str) -> Result<Vec<Token>, String> {
    let characters: Vec<char> = text.chars().collect();
    let mut tokens = Vec::new();
    let mut at = 0;
    while at < characters.len() && !characters[at..].starts_with(&['-', '-']) {
        if characters[at] == ' ' {
            at += 1;
            continue;
        }
        let (token, length) = token(&characters, at)?;
        tokens.push(token);
        at += length;
    }
    Ok(tokens)
}

/// The token that begins at this place, and how many characters it has.
fn token(characters: &[char], at: usize) -> Result<(Token, usize), String> {
    let after = &characters[at + 1..];
    match characters[at] {
        '.' => {
            let before = at.checked_sub(1).map(|at| characters[at]);
            let behind_a_value = before.is_some_and(|c| c == ')' || !ends_word(c));
            dot(after, behind_a_value)
        }
        '"' => quoted(after),
        first => match punctuation(first) {
            Some(token) => Ok((token, 1)),
            None => name_or_number(&characters[at..]),
        },
    }
}

/// What a dot begins. A field stands right behind its value.
fn dot(after: &[char], behind_a_value: bool) -> Result<(Token, usize), String> {
    let name = word(after);
    let length = 1 + name.chars().count();
    match (name.is_empty(), behind_a_value) {
        (true, _) => Ok((Token::Dot, length)),
        (false, true) => Ok((Token::Field(name), length)),
        (false, false) => Err(format!(".{name} stands behind no value")),
    }
}

/// A text, behind its first quotation mark.
fn quoted(after: &[char]) -> Result<(Token, usize), String> {
    let inside: String = after.iter().take_while(|c| **c != '"').collect();
    if inside.contains('\\') {
        return Err("escapes in a text are not read".to_string());
    }
    let length = inside.chars().count();
    if length == after.len() {
        return Err("a text without its end".to_string());
    }
    Ok((Token::Text(inside), length + 2))
}

fn name_or_number(characters: &[char]) -> Result<(Token, usize), String> {
    let name = word(characters);
    let length = name.chars().count();
    let token = if name.starts_with(|c: char| c.is_ascii_digit()) {
        Token::Number(number(&name)?)
    } else {
        Token::Name(name)
    };
    Ok((token, length))
}

fn punctuation(character: char) -> Option<Token> {
    Some(match character {
        'λ' => Token::Lambda,
        '(' => Token::Open,
        ')' => Token::Close,
        '{' => Token::OpenBrace,
        '}' => Token::CloseBrace,
        ';' => Token::Semicolon,
        ',' => Token::Comma,
        _ => return None,
    })
}

fn ends_word(character: char) -> bool {
    matches!(character, ' ' | '.' | '"') || punctuation(character).is_some()
}

fn word(characters: &[char]) -> String {
    characters.iter().take_while(|c| !ends_word(**c)).collect()
}

fn number(digits: &str) -> Result<u64, String> {
    let plain = digits.replace('_', "");
    let value = match plain.strip_prefix("0x") {
        Some(hexadecimal) => u64::from_str_radix(hexadecimal, 16),
        None => plain.parse(),
    };
    value.map_err(|_| format!("{digits} is no number"))
}

#[cfg(test)]
mod tests {
    use super::*;

    fn name(text: &str) -> Token {
        Token::Name(text.to_string())
    }

    #[test]
    fn a_field_is_told_from_the_dot_of_a_lambda() {
        let read = tokens("(λ k. (path_of e k).len) -- x .y").unwrap();
        let field = Token::Field("len".to_string());
        let expected = [
            Token::Open,
            Token::Lambda,
            name("k"),
            Token::Dot,
            Token::Open,
            name("path_of"),
            name("e"),
            name("k"),
            Token::Close,
            field,
            Token::Close,
        ];
        assert_eq!(read, expected);
    }

    #[test]
    fn a_field_behind_a_blank_is_none() {
        assert!(tokens("path_of e k .len").is_err());
    }

    #[test]
    fn numbers_and_texts_are_read() {
        let read = tokens("0x4C4B0000 + 10 ∷ \"FOR--MT\"").unwrap();
        let expected = [
            Token::Number(0x4C4B_0000),
            name("+"),
            Token::Number(10),
            name("∷"),
            Token::Text("FOR--MT".to_string()),
        ];
        assert_eq!(read, expected);
    }
}
