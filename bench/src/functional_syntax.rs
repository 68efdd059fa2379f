//! Catalogues in OWL functional syntax, read in one pass over the bytes with a stack of the brackets
//! that are open.

use crate::checks::Refusal;

const CONCEPTS: usize = 192;
const DEEPEST: usize = 32;

#[derive(Clone, Copy, PartialEq)]
enum Form {
    Axiom,
    All,
    Some(u16),
}

/// An open bracket, and how many ids waited when it was opened.
#[derive(Clone, Copy)]
struct Open {
    form: Form,
    waiting: usize,
}

struct Reader<'a> {
    text: &'a [u8],
    at: usize,
    open: [Open; DEEPEST + 1],
    depth: usize,
    /// Ids of classes that are closed, whose form is open.
    ids: [u16; CONCEPTS],
    waiting: usize,
    rows: [u16; 3 * CONCEPTS],
    count: usize,
    pairs: [u16; CONCEPTS],
    axioms: usize,
}

/// A token from `at` on, and where it starts.
enum Token<'a> {
    Open,
    Close,
    Word(&'a [u8]),
    End,
}

fn number(digits: &[u8], most: u16) -> Option<u16> {
    if digits.is_empty() || digits.len() > 3 || (digits[0] == b'0' && digits.len() > 1) {
        return None;
    }
    let mut number = 0;
    for &digit in digits {
        if !digit.is_ascii_digit() {
            return None;
        }
        number = 10 * number + u16::from(digit - b'0');
    }
    (number <= most).then_some(number)
}

impl<'a> Reader<'a> {
    fn next(&mut self) -> (usize, Token<'a>) {
        while let Some(b' ' | b'\n' | b'\r') = self.text.get(self.at) {
            self.at += 1;
        }
        let start = self.at;
        let token = match self.text.get(start) {
            None => Token::End,
            Some(b'(') => Token::Open,
            Some(b')') => Token::Close,
            Some(_) => {
                let ends = |&byte: &u8| matches!(byte, b' ' | b'\n' | b'\r' | b'(' | b')');
                let rest = &self.text[start..];
                Token::Word(&rest[..rest.iter().position(ends).unwrap_or(rest.len())])
            }
        };
        self.at += match token {
            Token::End => 0,
            Token::Open | Token::Close => 1,
            Token::Word(word) => word.len(),
        };
        (start, token)
    }

    /// The bracket behind a keyword.
    fn open(&mut self, form: Form) -> Result<(), Refusal> {
        match self.next() {
            (_, Token::Open) => {}
            (place, _) => return Err((17, place as u64)),
        }
        self.open[self.depth] = Open { form, waiting: self.waiting };
        self.depth += 1;
        Ok(())
    }

    fn row(&mut self, row: [u16; 3]) {
        self.rows[3 * self.count..3 * self.count + 3].copy_from_slice(&row);
        self.count += 1;
    }

    /// The last row is of a class that is closed.
    fn wait(&mut self) {
        self.ids[self.waiting] = self.count as u16 - 1;
        self.waiting += 1;
    }

    fn leaf(&mut self, row: [u16; 3]) -> Result<(), Refusal> {
        if self.count == CONCEPTS {
            return Err((1, 0));
        }
        self.row(row);
        self.wait();
        Ok(())
    }

    fn some(&mut self) -> Result<(), Refusal> {
        self.open(Form::Some(0))?;
        let (place, token) = self.next();
        let role = match token {
            Token::Word([b':', b'r', digits @ ..]) => number(digits, 99),
            _ => None,
        };
        self.open[self.depth - 1].form = Form::Some(role.ok_or((17, place as u64))?);
        Ok(())
    }

    fn class(&mut self, place: usize, word: &[u8]) -> Result<(), Refusal> {
        let name = match word {
            [b':', b'c', digits @ ..] => number(digits, 999),
            _ => None,
        };
        let key = matches!(word, b"owl:Thing" | b"ObjectIntersectionOf" | b"ObjectSomeValuesFrom");
        if !key && name.is_none() {
            return Err((17, place as u64));
        }
        if self.depth > DEEPEST {
            return Err((18, place as u64));
        }
        match (name, word) {
            (Some(name), _) => self.leaf([1, name, 0]),
            (_, b"owl:Thing") => self.leaf([0, 0, 0]),
            (_, b"ObjectIntersectionOf") => self.open(Form::All),
            _ => self.some(),
        }
    }

    fn close(&mut self, place: usize) -> Result<(), Refusal> {
        let Open { form, waiting } = self.open[self.depth - 1];
        let members = self.waiting - waiting;
        let (fits, more) = match form {
            Form::Axiom => (members == 2, 0),
            Form::Some(_) => (members == 1, 1),
            Form::All => (members > 1, members.saturating_sub(1)),
        };
        if !fits {
            return Err((17, place as u64));
        }
        if self.count + more > CONCEPTS {
            return Err((1, 0));
        }
        self.depth -= 1;
        self.waiting = waiting;
        let first = self.ids[waiting];
        match form {
            Form::Axiom => {
                let at = 2 * self.axioms;
                self.pairs[at..at + 2].copy_from_slice(&self.ids[waiting..waiting + 2]);
                self.axioms += 1;
                return Ok(());
            }
            Form::Some(role) => self.row([2, role, first]),
            Form::All => {
                let mut left = first;
                for k in waiting + 1..waiting + members {
                    self.row([3, left, self.ids[k]]);
                    left = self.count as u16 - 1;
                }
            }
        }
        self.wait();
        Ok(())
    }

    /// Whether the innermost form takes one more class.
    fn has_room(&self) -> bool {
        let Open { form, waiting } = self.open[self.depth - 1];
        match form {
            Form::Axiom => self.waiting - waiting < 2,
            Form::Some(_) => self.waiting == waiting,
            Form::All => true,
        }
    }

    fn read(&mut self) -> Result<(), Refusal> {
        loop {
            match self.next() {
                (_, Token::End) if self.depth == 0 => return Ok(()),
                (_, Token::Word(b"SubClassOf")) if self.depth == 0 => self.open(Form::Axiom)?,
                (place, Token::Close) if self.depth > 0 => self.close(place)?,
                (place, Token::Word(word)) if self.depth > 0 && self.has_room() => {
                    self.class(place, word)?
                }
                (place, _) => return Err((17, place as u64)),
            }
        }
    }
}

/// How many concepts and inclusions were read, each to its buffer.
pub fn read_owl(
    text: &[u8],
    concepts: &mut [u16],
    inclusions: &mut [u16],
) -> Result<(usize, usize), Refusal> {
    for (room, wanted) in [(concepts.len(), 3 * CONCEPTS), (inclusions.len(), CONCEPTS)] {
        if room < wanted {
            return Err((8, wanted as u64));
        }
    }
    if text.len() > 8192 {
        return Err((17, 8192));
    }
    let mut reader = Reader {
        text,
        at: 0,
        open: [Open { form: Form::Axiom, waiting: 0 }; DEEPEST + 1],
        depth: 0,
        ids: [0; CONCEPTS],
        waiting: 0,
        rows: [0; 3 * CONCEPTS],
        count: 0,
        pairs: [0; CONCEPTS],
        axioms: 0,
    };
    reader.read()?;
    let (count, axioms) = (reader.count, reader.axioms);
    concepts[..3 * count].copy_from_slice(&reader.rows[..3 * count]);
    inclusions[..2 * axioms].copy_from_slice(&reader.pairs[..2 * axioms]);
    Ok((count, axioms))
}
