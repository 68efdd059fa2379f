//! Catalogues in OWL functional syntax (02): the text is cut into tokens, the axioms are read from
//! them by recursive descent, and the tables are made from the axioms.

use std::str;

use super::Refusal;
use crate::limits::*;
use crate::owl::{Axiom, Class};
use crate::tables::Tables;

/// A bracket or a word, and the place of its first byte.
type Token<'a> = (usize, &'a [u8]);

fn is_bracket(byte: u8) -> bool {
    byte == b'(' || byte == b')'
}

fn in_word(byte: u8) -> bool {
    !is_bracket(byte) && ![b' ', b'\n', b'\r'].contains(&byte)
}

/// A token starts at each bracket, and at each byte of a word with none before it.
fn tokens(text: &[u8]) -> Vec<Token<'_>> {
    let goes_on = |at: usize| at > 0 && in_word(text[at - 1]);
    let starts = |&at: &usize| is_bracket(text[at]) || (in_word(text[at]) && !goes_on(at));
    let token = |at: usize| {
        let word = text[at..].iter().take_while(|&&byte| in_word(byte)).count();
        (at, &text[at..at + word.max(1)])
    };
    (0..text.len()).filter(starts).map(token).collect()
}

/// The number of a word of this key: all of the rest is the number as it is printed.
fn numbered(word: &[u8], key: &str, most: u16) -> Option<u16> {
    let digits = str::from_utf8(word.strip_prefix(key.as_bytes())?).ok()?;
    let number: u16 = digits.parse().ok()?;
    (number <= most && number.to_string() == digits).then_some(number)
}

struct Reader<'a> {
    tokens: Vec<Token<'a>>,
    at: usize,
    /// The text's length.
    end: usize,
    /// How many concepts the classes closed so far become, one after the other.
    closed: Vec<usize>,
}

impl<'a> Reader<'a> {
    fn next(&self) -> Option<&'a [u8]> {
        self.tokens.get(self.at).map(|token| token.1)
    }

    /// A refusal at the next token, or at the end of the text.
    fn refused<T>(&self, number: u16) -> Result<T, Refusal> {
        let place = self.tokens.get(self.at).map_or(self.end, |token| token.0);
        Err(Refusal { number, place: place as u64 })
    }

    fn off_grammar<T>(&self) -> Result<T, Refusal> {
        self.refused(17)
    }

    fn take(&mut self, token: &str) -> Result<(), Refusal> {
        if self.next() != Some(token.as_bytes()) {
            return self.off_grammar();
        }
        self.at += 1;
        Ok(())
    }

    fn role(&mut self) -> Result<u16, Refusal> {
        match self.next().and_then(|word| numbered(word, ":r", MAX_ROLE)) {
            Some(role) => {
                self.at += 1;
                Ok(role)
            }
            None => self.off_grammar(),
        }
    }

    /// What the next token begins so many deep, if it begins a class.
    fn begin(&mut self, depth: usize) -> Result<&'a [u8], Refusal> {
        match self.next() {
            Some(word)
                if ["owl:Thing", "ObjectIntersectionOf", "ObjectSomeValuesFrom"]
                    .iter()
                    .any(|key| key.as_bytes() == word)
                    || numbered(word, ":c", MAX_NAME).is_some() =>
            {
                if depth > MAX_DEPTH {
                    return self.refused(18);
                }
                self.at += 1;
                Ok(word)
            }
            _ => self.off_grammar(),
        }
    }

    fn class(&mut self, depth: usize) -> Result<Class, Refusal> {
        let (class, more) = match self.begin(depth)? {
            b"owl:Thing" => (Class::Thing, 1),
            b"ObjectSomeValuesFrom" => {
                self.take("(")?;
                let role = self.role()?;
                let inner = self.class(depth + 1)?;
                self.take(")")?;
                (Class::Some(role, Box::new(inner)), 1)
            }
            b"ObjectIntersectionOf" => {
                self.take("(")?;
                let mut members = vec![self.class(depth + 1)?, self.class(depth + 1)?];
                while self.next() != Some(b")") {
                    members.push(self.class(depth + 1)?);
                }
                self.take(")")?;
                let more = members.len() - 1;
                (Class::All(members), more)
            }
            word => (Class::Name(numbered(word, ":c", MAX_NAME).expect("a name")), 1),
        };
        self.closed.push(more);
        Ok(class)
    }

    fn axioms(&mut self) -> Result<Vec<Axiom>, Refusal> {
        let mut axioms = Vec::new();
        while self.at < self.tokens.len() {
            self.take("SubClassOf")?;
            self.take("(")?;
            let (left, right) = (self.class(1)?, self.class(1)?);
            self.take(")")?;
            axioms.push(Axiom { left, right });
        }
        Ok(axioms)
    }
}

/// The axioms, or the refusal of the first byte at fault. Only what is closed before another fault
/// counts, so too many concepts were then met first.
pub fn read(text: &[u8]) -> Result<Vec<Axiom>, Refusal> {
    let mut reader = Reader { tokens: tokens(text), at: 0, end: text.len(), closed: Vec::new() };
    let axioms = reader.axioms();
    if reader.closed.iter().sum::<usize>() > MAX_CONCEPTS {
        return Err(Refusal { number: 1, place: 0 });
    }
    axioms
}

/// The rows of a class behind those before; its id.
fn add(rows: &mut Vec<[u16; 3]>, class: &Class) -> u16 {
    let put = |row: [u16; 3], rows: &mut Vec<[u16; 3]>| {
        rows.push(row);
        rows.len() as u16 - 1
    };
    match class {
        Class::Thing => put([0, 0, 0], rows),
        Class::Name(name) => put([1, *name, 0], rows),
        Class::Some(role, inner) => {
            let inner = add(rows, inner);
            put([2, *role, inner], rows)
        }
        Class::All(members) => {
            let ids: Vec<u16> = members.iter().map(|member| add(rows, member)).collect();
            ids.into_iter().reduce(|left, right| put([3, left, right], rows)).expect("members")
        }
    }
}

/// The tables of the axioms: concepts as they close, no questions and no variables.
pub fn tables(axioms: &[Axiom]) -> Tables {
    let mut rows = Vec::new();
    let pairs: Vec<[u16; 2]> =
        axioms.iter().map(|axiom| [&axiom.left, &axiom.right].map(|c| add(&mut rows, c))).collect();
    Tables::new(&rows, &pairs, &[], 0)
}
