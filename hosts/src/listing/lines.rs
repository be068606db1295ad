//! A listing's statements: lines with comments cut off, where an indented line goes on with the one before.

use std::fmt;

/// What is wrong with a listing, and the line where it shows.
#[derive(Clone, Debug, PartialEq, Eq)]
pub struct Fault {
    pub line: usize,
    pub what: String,
}

impl fmt::Display for Fault {
    fn fmt(&self, formatter: &mut fmt::Formatter) -> fmt::Result {
        write!(formatter, "line {}: {}", self.line, self.what)
    }
}

pub fn fault<T>(line: usize, what: impl Into<String>) -> Result<T, Fault> {
    let what = what.into();
    Err(Fault { line, what })
}

/// A word of a listing, and how often it stands there: `9*6` is six times 9.
#[derive(Clone, Copy, Debug, PartialEq, Eq)]
pub struct Token<'a> {
    pub line: usize,
    pub text: &'a str,
    pub times: usize,
}

/// A statement's first word and what follows it.
#[derive(Clone, Debug, PartialEq, Eq)]
pub struct Statement<'a> {
    pub line: usize,
    pub verb: &'a str,
    pub rest: Vec<Token<'a>>,
}

/// More than any image needs; an accidental `0*4000000000` is not to fill the memory.
pub const MOST_TIMES: usize = 1 << 20;

pub fn statements(text: &str) -> Result<Vec<Statement<'_>>, Fault> {
    let mut statements: Vec<Statement> = Vec::new();
    for (line, text) in (1..).zip(text.lines()) {
        let said = text.split('#').next().unwrap_or_default();
        let mut words = said.split_whitespace();
        if said.trim().is_empty() {
            continue;
        }
        if !said.starts_with([' ', '\t']) {
            let verb = words.next().unwrap_or_default();
            let rest = Vec::new();
            statements.push(Statement { line, verb, rest });
        }
        let Some(statement) = statements.last_mut() else {
            return fault(
                line,
                "an indented line goes on with the one before, but there is none",
            );
        };
        for word in words {
            statement.rest.push(token(line, word)?);
        }
    }
    Ok(statements)
}

fn token(line: usize, word: &str) -> Result<Token<'_>, Fault> {
    let Some((text, times)) = word.split_once('*') else {
        let times = 1;
        return Ok(Token {
            line,
            text: word,
            times,
        });
    };
    match times.parse() {
        Ok(times) if times <= MOST_TIMES && !text.is_empty() => Ok(Token { line, text, times }),
        _ => fault(
            line,
            format!("`{word}`: write VALUE*TIMES, with at most {MOST_TIMES} times"),
        ),
    }
}

/// A plain word, in decimal or in hexadecimal with 0x in front.
pub fn number(token: &Token) -> Result<u32, Fault> {
    let parsed = match token.text.strip_prefix("0x") {
        Some(digits) if !digits.starts_with('+') => u32::from_str_radix(digits, 16),
        _ if token.text.starts_with('+') => "".parse(),
        _ => token.text.parse(),
    };
    match parsed {
        Ok(number) => Ok(number),
        Err(_) => fault(
            token.line,
            format!("`{}` is no number from 0 to 4294967295", token.text),
        ),
    }
}
