//! Reads a problem in house text, line by line, and refuses what the program refuses: a text off the layout with 13
//! and the byte where its line starts, a count over its limit with 1 and the table. What the lines say is left to the
//! library's checks.

use hermitcasket::{limits, OwnedTables};

/// Number and place.
pub type Refused = (u16, u64);

/// The numbers of `list`, with commas between them and written without leading zeros.
fn numbers(list: &str) -> Option<Vec<u16>> {
    let number = |word: &str| {
        let is_plain = word == "0" || !word.starts_with('0');
        let digits = word.bytes().all(|byte| byte.is_ascii_digit());
        if is_plain && digits {
            word.parse().ok()
        } else {
            None
        }
    };
    list.split(',').map(number).collect()
}

struct Reader<'a> {
    text: &'a str,
    /// How many bytes were read.
    at: usize,
}

impl<'a> Reader<'a> {
    fn off<T>(&self) -> Result<T, Refused> {
        Err((13, self.at as u64))
    }

    /// Whether the line that is due has this key.
    fn is_next(&self, key: &str) -> bool {
        self.text[self.at..].strip_prefix(key).map_or(false, |rest| rest.starts_with('='))
    }

    /// The numbers of the line that is due, if it has that key and so many of them.
    fn line<const COUNT: usize>(&mut self, key: &str) -> Result<[u16; COUNT], Refused> {
        let (line, _) = match self.text[self.at..].split_once('\n') {
            Some(parts) => parts,
            None => return self.off(),
        };
        let list = line.strip_prefix(key).and_then(|rest| rest.strip_prefix('='));
        match list.and_then(numbers).and_then(|numbers| numbers.try_into().ok()) {
            Some(numbers) => {
                self.at += line.len() + 1;
                Ok(numbers)
            }
            None => self.off(),
        }
    }

    fn count(&mut self, key: &str, most: usize, table: u64) -> Result<u16, Refused> {
        let [count] = self.line(key)?;
        if usize::from(count) > most {
            return Err((1, table));
        }
        Ok(count)
    }

    fn pairs(&mut self, key: &str, count: u16) -> Result<Vec<u16>, Refused> {
        let mut pairs = Vec::new();
        for _ in 0..count {
            pairs.extend(self.line::<2>(key)?);
        }
        Ok(pairs)
    }

    fn concept(&mut self) -> Result<[u16; 3], Refused> {
        let one = |kind: u16, [number]: [u16; 1]| [kind, number, 0];
        let two = |kind: u16, [first, second]: [u16; 2]| [kind, first, second];
        if self.is_next("name") {
            return Ok(one(1, self.line("name")?));
        }
        if self.is_next("some") {
            return Ok(two(2, self.line("some")?));
        }
        if self.is_next("and") {
            return Ok(two(3, self.line("and")?));
        }
        if self.is_next("blank") {
            return Ok(one(4, self.line("blank")?));
        }
        let start = self.at;
        match self.line("top")? {
            [0] => Ok([0, 0, 0]),
            _ => Err((13, start as u64)),
        }
    }
}

/// The tables of a text. A pair that is to be shown is passed over.
pub fn read(text: &str) -> Result<OwnedTables, Refused> {
    if text.len() > limits::TEXT {
        return Err((13, limits::TEXT as u64));
    }
    let mut reader = Reader { text, at: 0 };
    let variables = reader.count("blanks", limits::VARIABLES, 3)?;
    let mut roles = Vec::new();
    if reader.is_next("roles") {
        let count = reader.count("roles", limits::ROLE_PAIRS, 4)?;
        roles = reader.pairs("wider", count)?;
    }
    let count = reader.count("entries", limits::CONCEPTS, 0)?;
    let mut concepts = Vec::new();
    for _ in 0..count {
        concepts.extend(reader.concept()?);
    }
    let count = reader.count("inclusions", limits::INCLUSIONS, 1)?;
    let inclusions = reader.pairs("below", count)?;
    let count = reader.count("questions", limits::QUESTIONS, 2)?;
    let questions = reader.pairs("below", count)?;
    if reader.at < text.len() {
        reader.line::<2>("show")?;
    }
    if reader.at < text.len() {
        return reader.off();
    }
    Ok(OwnedTables { concepts, inclusions, questions, roles, variables })
}

#[cfg(test)]
mod tests {
    use super::read;

    const SAMPLE: &str = include_str!("../../examples/sample.txt");

    #[test]
    fn the_sample_is_read() {
        let tables = read(SAMPLE).expect("house text");
        assert_eq!(tables.concepts, [1, 5, 0, 1, 7, 0, 2, 1, 0, 1, 9, 0, 4, 0, 0, 3, 1, 4]);
        assert_eq!((tables.inclusions, tables.questions), (vec![2, 3], vec![5, 3, 2, 4]));
        assert_eq!((tables.roles, tables.variables), (vec![], 1));
    }

    #[test]
    fn role_pairs_and_a_pair_to_be_shown_are_read() {
        let tables = read(include_str!("../../examples/doubt.txt")).expect("house text");
        assert_eq!((tables.roles, tables.variables), (vec![2, 1], 0));
    }

    #[test]
    fn the_line_at_fault_is_refused() {
        for (from, to, refused) in [
            ("some=1,0", "some=1", (13, 33)),
            ("blanks=1", "blanks=01", (13, 0)),
            ("blanks=1", "blanks=+1", (13, 0)),
            ("blanks=1\n", "blanks=1\r\n", (13, 0)),
            ("blanks=1", "blanks=9", (1, 3)),
            ("entries=6", "entries=193", (1, 0)),
            ("inclusions=1", "inclusions=97", (1, 1)),
            ("below=2,4\n", "below=2,4", (13, 110)),
            ("below=2,4\n", "below=2,4\n\n", (13, 120)),
            ("name=5", "top=1", (13, 19)),
        ] {
            assert_eq!(read(&SAMPLE.replacen(from, to, 1)).err(), Some(refused), "{}", to);
        }
        assert_eq!(read("").err(), Some((13, 0)));
        assert_eq!(read(&" ".repeat(8193)).err(), Some((13, 8192)));
    }
}
