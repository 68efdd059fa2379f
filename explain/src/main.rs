//! Says why one entry of a card is below another, or shows where it is not.
//!
//!     explain CARD LEFT RIGHT [--legend FILE] [--lines FILE] [--picture FILE]
//!
//! The card is in house text. Its blanks are filled as `hc_match` fills them, or read as top where nothing does.
//! A yes is told as indented sentences, from a derivation that the library writes or from the lines of a file, which the
//! library checks first. A no is told by a stock where it fails, and drawn as SVG if a file is named. docs/FORMATS.md has the
//! formats. Exit status: 0 below, 1 not below, 2 refused, 3 could not run.

mod arguments;
mod house_text;
mod interpretation;
mod picture;
mod sentences;
mod words;

use std::env;
use std::fs;
use std::io::{self, Write};
use std::process::ExitCode;

use hermitcasket::{Derivation, OwnedTables, Refusal};

use arguments::Arguments;
use words::{house_words, Legend, Wording};

/// What ends the program early, in words: a refusal, or anything else.
enum Stop {
    Refused(String),
    CouldNot(String),
}

impl From<Refusal> for Stop {
    fn from(refusal: Refusal) -> Stop {
        Stop::Refused(house_words(&refusal.to_string()))
    }
}

fn could_not<T>(path: &str, words: impl ToString) -> Result<T, Stop> {
    Err(Stop::CouldNot(format!("{}: {}", path, words.to_string())))
}

fn read(path: &str) -> Result<String, Stop> {
    fs::read_to_string(path).or_else(|error| could_not(path, error))
}

fn read_card(path: &str) -> Result<OwnedTables, Stop> {
    house_text::read(&read(path)?).map_err(|(number, place)| {
        let words = match number {
            1 => format!(
                "refusal 1: over the limit of {}",
                ["entries", "inclusions", "questions", "blanks", "roles"][place as usize]
            ),
            _ => format!("refusal 13: off the layout of house text at byte {}", place),
        };
        Stop::Refused(format!("{}: {}", path, words))
    })
}

fn read_legend(path: &Option<String>) -> Result<Legend, Stop> {
    match path {
        Some(path) => Legend::read(&read(path)?).or_else(|words| could_not(path, words)),
        None => Ok(Legend::default()),
    }
}

/// Lines of four numbers, with spaces or commas between them. They are counted from 0, as in a refusal.
fn read_lines(path: &str) -> Result<Derivation, Stop> {
    let mut lines = Vec::new();
    for (at, line) in read(path)?.lines().enumerate() {
        let is_between = |c: char| c == ',' || c.is_whitespace();
        let words = line.split(is_between).filter(|word| !word.is_empty());
        let numbers: Option<Vec<u16>> = words.map(|word| word.parse().ok()).collect();
        match numbers.and_then(|numbers| numbers.try_into().ok()) {
            Some(four) => lines.push(four),
            None => return could_not(path, format!("line {} (from 0) is not four numbers", at)),
        }
    }
    Ok(lines)
}

/// What is printed, and whether the left is below the right.
fn explain(arguments: &Arguments) -> Result<(String, bool), Stop> {
    let tables = read_card(&arguments.card)?;
    let legend = read_legend(&arguments.legend)?;
    let found = tables.lend().find_assignment()?;
    let mut said = match (&found, tables.variables) {
        (Some(_), _) => "",
        (None, 0) => "not every question of the card holds\n",
        (None, _) => "nothing fills the card, so every blank is read as anything\n",
    }
    .to_string();
    let assignment = found.unwrap_or_else(|| vec![0; usize::from(tables.variables)]);
    let words = Wording { tables: &tables, assignment: &assignment, legend: &legend };
    for variable in 0..tables.variables {
        said += &format!("blank {}: {}\n", variable, words.concepts(&words.chosen(variable)?));
    }
    let is_below = tables.lend().is_subsumed(&assignment, arguments.left, arguments.right)?;
    said += &match is_below {
        true => yes(&words, arguments)?,
        false => no(&words, arguments)?,
    };
    Ok((said, is_below))
}

fn yes(words: &Wording, arguments: &Arguments) -> Result<String, Stop> {
    let (tables, left, right) = (words.tables.lend(), arguments.left, arguments.right);
    if arguments.picture.is_some() {
        eprintln!("explain: it is below, so there is no stock to draw");
    }
    let lines = match &arguments.lines {
        Some(path) => read_lines(path)?,
        None => tables.derivation(words.assignment, left, right)?,
    };
    tables.check_derivation(words.assignment, left, right, &lines)?;
    Ok(sentences::sentences(words, &lines)?)
}

fn no(words: &Wording, arguments: &Arguments) -> Result<String, Stop> {
    let (tables, left, right) = (words.tables.lend(), arguments.left, arguments.right);
    if let Some(path) = &arguments.lines {
        // no lines show it; the library says what is wrong with these
        tables.check_derivation(words.assignment, left, right, &read_lines(path)?)?;
    }
    let shown = tables.countermodel(words.assignment, left, right)?;
    let columns = interpretation::columns(&shown, left, words.legend);
    if let Some(path) = &arguments.picture {
        fs::write(path, picture::draw(&columns)).or_else(|error| could_not(path, error))?;
    }
    let not = format!("{} is not below {}: ", words.quoted(left), words.quoted(right));
    let look = format!(
        "all inclusions hold here, and thing {} is of the one and not of the other\n",
        left
    );
    Ok(not + &look + &interpretation::sentences(&columns, shown.size))
}

fn main() -> ExitCode {
    let arguments = Arguments::read(env::args().skip(1)).map_err(Stop::CouldNot);
    let (words, status) = match arguments.and_then(|arguments| explain(&arguments)) {
        Ok((said, is_below)) => {
            // whoever reads may have gone
            let written = io::stdout().write_all(said.as_bytes());
            let status = if is_below { 0 } else { 1 };
            return ExitCode::from(if written.is_ok() { status } else { 3 });
        }
        Err(Stop::Refused(words)) => (words, 2),
        Err(Stop::CouldNot(words)) => (words, 3),
    };
    eprintln!("explain: {}", words);
    ExitCode::from(status)
}
