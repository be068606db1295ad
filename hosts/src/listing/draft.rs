//! What a listing says before its references are words: the heap's parts with their places, and the rest.

use super::lines::{fault, number, Fault, Statement, Token, MOST_TIMES};
use crate::plain::Kind;
use std::collections::BTreeMap;

const VERBS: &str = "keep, drop, free, roots, order, words, mark, mark-table and top";

/// A stretch of the heap.
pub enum Part<'a> {
    Object { kind: Kind, payload: &'a [Token<'a>] },
    Plain(&'a [Token<'a>]),
}

/// All that the statements say. A mark has its line, in case it is past the table.
#[derive(Default)]
pub struct Draft<'a> {
    pub parts: Vec<Part<'a>>,
    pub names: BTreeMap<&'a str, Named>,
    pub marks: Vec<(usize, usize)>,
    pub roots: Vec<Token<'a>>,
    pub order: Vec<Token<'a>>,
    pub top: Option<u32>,
    pub mark_table: Option<usize>,
    pub heap_words: usize,
    /// Where the first free words begin.
    pub free_from: Option<usize>,
}

/// The place of an object that has a name, and the line that gives it.
#[derive(Clone, Copy)]
pub struct Named {
    pub place: usize,
    line: usize,
}

pub fn draft<'a>(statements: &'a [Statement<'a>]) -> Result<Draft<'a>, Fault> {
    let mut draft = Draft::default();
    for statement in statements {
        draft.add(statement)?;
    }
    Ok(draft)
}

impl<'a> Draft<'a> {
    fn add(&mut self, statement: &'a Statement<'a>) -> Result<(), Fault> {
        let Statement { line, verb, rest } = statement;
        match *verb {
            "keep" | "drop" => self.add_object(statement),
            "words" => self.add_words(*line, rest, false),
            "free" => self.add_words(*line, rest, true),
            "roots" => add_all(*line, &mut self.roots, rest),
            "order" => add_all(*line, &mut self.order, rest),
            "mark" => self.add_marks(rest),
            "top" => {
                let top = only_number(statement)?;
                set_once(statement, &mut self.top, top)
            }
            "mark-table" => {
                let blocks = only_number(statement)? as usize;
                if blocks > MOST_TIMES {
                    return fault(*line, format!("a mark table has at most {MOST_TIMES} blocks"));
                }
                set_once(statement, &mut self.mark_table, blocks)
            }
            _ => fault(*line, format!("`{verb}` begins no line; {VERBS} do")),
        }
    }

    /// `keep` or `drop`, a name that may be left out, the kind, and the payload.
    fn add_object(&mut self, statement: &'a Statement<'a>) -> Result<(), Fault> {
        let line = statement.line;
        let (name, after_name) = match &statement.rest[..] {
            [first, ..] if kind(first).is_some() => (None, &statement.rest[..]),
            [name, after_name @ ..] => (Some(name), after_name),
            [] => (None, &[][..]),
        };
        let Some((Some(kind), payload)) = after_name.split_first().map(|(first, rest)| (kind(first), rest))
        else {
            let verb = statement.verb;
            return fault(
                line,
                format!("write `{verb} NAME record VALUES` or `{verb} NAME raw NUMBERS`"),
            );
        };
        let words = words_in(payload);
        if words > 1023 {
            return fault(line, format!("{words} payload words; an object has at most 1023"));
        }
        let place = self.heap_words;
        if let Some(name) = name {
            self.add_name(name, place)?;
        }
        if statement.verb == "keep" {
            self.marks.push((line, place));
        }
        self.grow(line, 1 + words, false)?;
        self.parts.push(Part::Object { kind, payload });
        Ok(())
    }

    fn add_name(&mut self, token: &Token<'a>, place: usize) -> Result<(), Fault> {
        let Token {
            line,
            text: name,
            times,
        } = *token;
        let is_name = name.starts_with(|letter: char| letter.is_ascii_alphabetic())
            && name
                .chars()
                .all(|letter| letter.is_ascii_alphanumeric() || "-_".contains(letter));
        if !is_name || times != 1 {
            return fault(
                line,
                format!("`{name}` is neither record nor raw, nor a name of letters, digits, - and _"),
            );
        }
        if let Some(first) = self.names.insert(name, Named { place, line }) {
            return fault(
                line,
                format!("`{name}` is also the name of the object in line {}", first.line),
            );
        }
        Ok(())
    }

    fn add_words(&mut self, line: usize, words: &'a [Token<'a>], are_free: bool) -> Result<(), Fault> {
        self.grow(line, words_in(words), are_free)?;
        self.parts.push(Part::Plain(words));
        Ok(())
    }

    fn grow(&mut self, line: usize, words: usize, by_free: bool) -> Result<(), Fault> {
        if by_free {
            self.free_from.get_or_insert(self.heap_words);
        } else if self.free_from.is_some() {
            return fault(line, "nothing in the heap comes after its free words");
        }
        self.heap_words += words;
        if self.heap_words > MOST_TIMES {
            return fault(line, format!("a heap of over {MOST_TIMES} words"));
        }
        Ok(())
    }

    fn add_marks(&mut self, places: &'a [Token<'a>]) -> Result<(), Fault> {
        for place in places {
            self.marks.push((place.line, number(place)? as usize));
        }
        Ok(())
    }
}

fn kind(token: &Token) -> Option<Kind> {
    match (token.text, token.times) {
        ("record", 1) => Some(Kind::Record),
        ("raw", 1) => Some(Kind::Raw),
        _ => None,
    }
}

fn words_in(tokens: &[Token]) -> usize {
    tokens.iter().map(|token| token.times).sum()
}

fn add_all<'a>(line: usize, all: &mut Vec<Token<'a>>, more: &[Token<'a>]) -> Result<(), Fault> {
    all.extend(more);
    if words_in(all) > MOST_TIMES {
        return fault(line, format!("over {MOST_TIMES} of them"));
    }
    Ok(())
}

fn only_number(statement: &Statement) -> Result<u32, Fault> {
    match &statement.rest[..] {
        [only] if only.times == 1 => number(only),
        _ => fault(statement.line, format!("write `{} NUMBER`", statement.verb)),
    }
}

fn set_once<T>(statement: &Statement, slot: &mut Option<T>, value: T) -> Result<(), Fault> {
    if slot.replace(value).is_some() {
        return fault(statement.line, format!("a second line with `{}`", statement.verb));
    }
    Ok(())
}
