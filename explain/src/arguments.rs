//! What the program is asked: a card, a pair of ids, and files.

pub const USAGE: &str = "explain CARD LEFT RIGHT [--legend FILE] [--lines FILE] [--picture FILE]";

/// The words of the command line, read.
#[derive(Debug, Default, PartialEq, Eq)]
pub struct Arguments {
    pub card: String,
    pub left: u16,
    pub right: u16,
    pub legend: Option<String>,
    pub lines: Option<String>,
    pub picture: Option<String>,
}

impl Arguments {
    pub fn read(mut words: impl Iterator<Item = String>) -> Result<Arguments, String> {
        let (mut found, mut plain) = (Arguments::default(), Vec::new());
        while let Some(word) = words.next() {
            let option = match word.as_str() {
                "--legend" => &mut found.legend,
                "--lines" => &mut found.lines,
                "--picture" => &mut found.picture,
                _ => {
                    plain.push(word);
                    continue;
                }
            };
            *option = Some(words.next().ok_or(format!("{} wants a file\n{}", word, USAGE))?);
        }
        let [card, left, right]: [String; 3] = plain.try_into().map_err(|_| USAGE.to_string())?;
        let id = |word: String| word.parse().map_err(|_| format!("{} is no id\n{}", word, USAGE));
        Ok(Arguments { card, left: id(left)?, right: id(right)?, ..found })
    }
}
