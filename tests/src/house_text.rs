//! The program's text (01: house text): a reader, a layout and the whole output, written from 01 and
//! 02.

use std::fmt::Write;

use crate::limits::*;
use crate::reference::{self, atoms, Refusal};
use crate::tables::{Stock, Tables};

const KINDS: [&str; 5] = ["top", "name", "some", "and", "blank"];

/// The text of a problem, or `None` where the layout has no line for it: ragged tables, unknown
/// kinds, unused fields. Without role pairs it has no section for them.
pub fn layout(tables: &Tables) -> Option<Vec<u8>> {
    layout_with(tables, !tables.roles.is_empty())
}

/// The same with the section for the role pairs, or without it and them.
pub fn layout_with(tables: &Tables, section: bool) -> Option<Vec<u8>> {
    let mut lines = vec![format!("blanks={}", tables.variables)];
    let pairs = [&tables.inclusions, &tables.questions, &tables.roles];
    if tables.concepts.len() % 3 != 0 || pairs.iter().any(|list| list.len() % 2 != 0) {
        return None;
    }
    if section {
        lines.push(format!("roles={}", tables.roles.len() / 2));
        lines
            .extend(tables.role_pairs().map(|(narrow, wide)| format!("wider={},{}", narrow, wide)));
    }
    lines.push(format!("entries={}", tables.concept_count()));
    for id in 0..tables.concept_count() {
        lines.push(match tables.row(id) {
            [0, 0, 0] => "top=0".to_string(),
            [1, name, 0] => format!("name={}", name),
            [2, role, inner] => format!("some={},{}", role, inner),
            [3, first, second] => format!("and={},{}", first, second),
            [4, variable, 0] => format!("blank={}", variable),
            _ => return None,
        });
    }
    for (key, list) in [("inclusions", &tables.inclusions), ("questions", &tables.questions)] {
        lines.push(format!("{}={}", key, list.len() / 2));
        lines.extend(list.chunks_exact(2).map(|pair| format!("below={},{}", pair[0], pair[1])));
    }
    Some(lines.iter().flat_map(|line| [line.as_bytes(), b"\n"].concat()).collect())
}

/// The text of a problem with the pair in a last line `show=`, if there is one to show.
pub fn layout_showing(tables: &Tables, show: Option<(u16, u16)>) -> Option<Vec<u8>> {
    let line = show.map_or(String::new(), |(left, right)| format!("show={},{}\n", left, right));
    layout(tables).map(|text| [text, line.into_bytes()].concat())
}

/// What a text says.
#[derive(Clone, Debug, PartialEq, Eq)]
pub struct Problem {
    pub tables: Tables,
    /// The pair of a last line `show=`: the interpretation is wanted and not a filling.
    pub show: Option<(u16, u16)>,
}

/// A text and how much of it was read.
struct Reader<'a> {
    text: &'a [u8],
    at: usize,
}

impl Reader<'_> {
    fn off_layout<T>(&self) -> Result<T, Refusal> {
        Err(Refusal { number: 13, place: self.at as u64 })
    }

    /// The numbers of the next line, if its key is one of `keys` and it has as many numbers as
    /// that key takes. Nothing is read otherwise.
    fn line(&mut self, keys: &[(&str, usize)]) -> Result<(usize, Vec<u16>), Refusal> {
        let rest = &self.text[self.at..];
        let end = match rest.iter().position(|&byte| byte == b'\n') {
            Some(end) => end,
            None => return self.off_layout(),
        };
        for (which, (key, count)) in keys.iter().enumerate() {
            let start = format!("{}=", key);
            let list = rest[..end].strip_prefix(start.as_bytes());
            match list.and_then(numbers) {
                Some(numbers) if numbers.len() == *count => {
                    self.at += end + 1;
                    return Ok((which, numbers));
                }
                _ => {}
            }
        }
        self.off_layout()
    }

    /// A line with a count; over its limit it is refusal 1 with the table's place.
    fn count(&mut self, key: &str, most: usize, place: u64) -> Result<u16, Refusal> {
        let (_, numbers) = self.line(&[(key, 1)])?;
        if usize::from(numbers[0]) > most {
            return Err(Refusal { number: 1, place });
        }
        Ok(numbers[0])
    }

    fn entry(&mut self) -> Result<[u16; 3], Refusal> {
        let start = self.at;
        let keys: Vec<(&str, usize)> = KINDS.into_iter().zip([1, 1, 2, 2, 1]).collect();
        let (kind, numbers) = self.line(&keys)?;
        if kind == 0 && numbers[0] != 0 {
            self.at = start;
            return self.off_layout();
        }
        Ok([kind as u16, numbers[0], *numbers.get(1).unwrap_or(&0)])
    }

    fn pairs(&mut self, key: &str, count: u16) -> Result<Vec<u16>, Refusal> {
        let mut numbers = Vec::new();
        for _ in 0..count {
            numbers.extend(self.line(&[(key, 2)])?.1);
        }
        Ok(numbers)
    }

    /// The section that may stand behind the blanks. Any other line there is for the entries.
    fn roles(&mut self) -> Result<Vec<u16>, Refusal> {
        if !self.text[self.at..].starts_with(b"roles=") {
            return Ok(Vec::new());
        }
        let count = self.count("roles", MAX_ROLE_PAIRS, 4)?;
        self.pairs("wider", count)
    }

    /// The line that may be the last one. Whatever else is there is off the layout.
    fn show(&mut self) -> Result<Option<(u16, u16)>, Refusal> {
        if self.at == self.text.len() {
            return Ok(None);
        }
        let (_, ids) = self.line(&[("show", 2)])?;
        if self.at < self.text.len() {
            return self.off_layout();
        }
        Ok(Some((ids[0], ids[1])))
    }
}

fn numbers(list: &[u8]) -> Option<Vec<u16>> {
    list.split(|&byte| byte == b',').map(number).collect()
}

/// Digits without a leading zero, up to 65535.
fn number(digits: &[u8]) -> Option<u16> {
    let plain = digits.iter().all(u8::is_ascii_digit);
    if !plain || digits.is_empty() || (digits.len() > 1 && digits[0] == b'0') {
        return None;
    }
    std::str::from_utf8(digits).ok()?.parse().ok()
}

/// The problem, or the refusal of the earliest faulty line.
pub fn read(text: &[u8]) -> Result<Problem, Refusal> {
    if text.len() > MAX_TEXT {
        return Err(Refusal { number: 13, place: MAX_TEXT as u64 });
    }
    let mut reader = Reader { text, at: 0 };
    let variables = reader.count("blanks", MAX_VARIABLES, 3)?;
    let roles = reader.roles()?;
    let entries = reader.count("entries", MAX_CONCEPTS, 0)?;
    let mut concepts = Vec::new();
    for _ in 0..entries {
        concepts.extend(reader.entry()?);
    }
    let count = reader.count("inclusions", MAX_INCLUSIONS, 1)?;
    let inclusions = reader.pairs("below", count)?;
    let count = reader.count("questions", MAX_QUESTIONS, 2)?;
    let questions = reader.pairs("below", count)?;
    let show = reader.show()?;
    Ok(Problem { tables: Tables { concepts, inclusions, questions, roles, variables }, show })
}

/// All that the program prints for a text.
pub fn output(text: &[u8]) -> String {
    let found = read(text).and_then(|problem| match problem.show {
        None => filling(&problem.tables),
        Some(pair) => shown(&problem.tables, pair),
    });
    found.unwrap_or_else(refused)
}

fn filling(tables: &Tables) -> Result<String, Refusal> {
    let assignment = reference::find(tables, usize::from(tables.variables))?;
    Ok(filled(&atoms::chosen(tables, &assignment)))
}

/// The interpretation and nothing else, under the empty assignment.
fn shown(tables: &Tables, pair: (u16, u16)) -> Result<String, Refusal> {
    let nothing = vec![0; usize::from(tables.variables)];
    let rows = reference::show(tables, &nothing, pair, usize::MAX)?;
    Ok(stock_lines(&Stock { size: tables.concept_count() as u16, rows }))
}

/// One line a row.
pub fn stock_lines(stock: &Stock) -> String {
    let mut lines = format!("things={}\n", stock.size);
    for [kind, element, symbol, target] in stock.split() {
        let written = match kind {
            0 => writeln!(lines, "is={},{}", element, symbol),
            _ => writeln!(lines, "link={},{},{}", element, symbol, target),
        };
        written.expect("a line more");
    }
    lines
}

fn filled(chosen: &[Vec<usize>]) -> String {
    let mut lines = format!("answer=filled\nblanks={}\n", chosen.len());
    for ids in chosen {
        let list: Vec<String> = ids.iter().map(usize::to_string).collect();
        lines += &format!("fill={}\n", list.join(","));
    }
    lines
}

pub fn refused(refusal: Refusal) -> String {
    match refusal.number {
        10 => "answer=none\n".to_string(),
        number => format!("answer=refused\nnumber={}\nplace={}\n", number, refusal.place),
    }
}
