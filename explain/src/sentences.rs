//! A derivation as indented sentences: the asked pair first, and under each pair what it rests on.

use std::collections::{HashMap, HashSet};

use hermitcasket::Result;

use crate::words::Wording;

type Pair = (u16, u16);

/// What the left is below and why, in words, and the pairs that this rests on.
fn reason(words: &Wording, [rule, left, right, extra]: [u16; 4]) -> Result<(String, Vec<Pair>)> {
    let (row, other) = (words.row(left), words.row(right));
    let to = words.quoted(right);
    Ok(match rule {
        1 if left == right => ("itself".into(), vec![]),
        1 => (format!("{}, since it is the same name", to), vec![]),
        2 => (to, vec![]),
        3 => {
            let (place, member) = [("first", row[1]), ("second", row[2])][usize::from(extra)];
            (format!("{}, since its {} member is", to, place), vec![(member, right)])
        }
        4 => {
            let said = format!("{}, since it is below both members", to);
            (said, vec![(left, other[1]), (left, other[2])])
        }
        5 if row[1] == other[1] => {
            (format!("{}, since what is inside is", to), vec![(row[2], other[2])])
        }
        5 => {
            let (narrow, wide) = (words.legend.role(row[1]), words.legend.role(other[1]));
            let said = format!("{}, since \"{}\" counts as \"{}\"", to, narrow, wide);
            (said, vec![(row[2], other[2])])
        }
        6 => (by_inclusion(words, (left, right), extra), {
            let (from, to) = words.inclusion(extra);
            vec![(left, from), (to, right)]
        }),
        7 => {
            let said = format!("{}, since it is filled with {}", to, words.quoted(extra));
            (said, vec![(extra, right)])
        }
        _ => match words.chosen(other[1])? {
            chosen if chosen.is_empty() => {
                (format!("{}, which is left empty, so everything is", to), vec![])
            }
            chosen => {
                let said = format!("{}, which is filled with \"{}\"", to, words.concepts(&chosen));
                (said, chosen.into_iter().map(|atom| (left, atom)).collect())
            }
        },
    })
}

/// The inclusion is written out where it says more than the pair.
fn by_inclusion(words: &Wording, pair: Pair, place: u16) -> String {
    let (from, to) = words.inclusion(place);
    let said = format!("{} by inclusion {}", words.quoted(pair.1), place);
    match pair == (from, to) {
        true => said,
        false => format!("{}, {} is below {}", said, words.quoted(from), words.quoted(to)),
    }
}

/// The sentences of an accepted derivation. A pair that was shown is not shown again, and that an entry is below
/// itself goes without saying where something else rests on it.
pub fn sentences(words: &Wording, lines: &[[u16; 4]]) -> Result<String> {
    let mut by_pair: HashMap<Pair, [u16; 4]> = HashMap::new();
    for line in lines {
        // of two lines of one pair the first one, whose premises are all before it
        by_pair.entry((line[1], line[2])).or_insert(*line);
    }
    let mut told: HashSet<Pair> = HashSet::new();
    let mut said = String::new();
    let mut open: Vec<(usize, Pair)> =
        lines.last().map(|line| (0, (line[1], line[2]))).into_iter().collect();
    while let Some((depth, pair)) = open.pop() {
        let (below, mut premises) = reason(words, by_pair[&pair])?;
        premises.retain(|(left, right)| left != right);
        let again = !told.insert(pair) && !premises.is_empty();
        let mark = if again { " (shown above)" } else { "" };
        said +=
            &format!("{}{} is below {}{}\n", "  ".repeat(depth), words.quoted(pair.0), below, mark);
        if !again {
            open.extend(premises.into_iter().rev().map(|premise| (depth + 1, premise)));
        }
    }
    Ok(said)
}

#[cfg(test)]
mod tests {
    use super::sentences;
    use crate::words::{Legend, Wording};
    use hermitcasket::OwnedTables;
    use hermitcasket_tests::generate;
    use hermitcasket_tests::random::{seed, Random, Size};

    /// 0 rye, 1 bread, 2 anything, 3 contains rye, 4 holds rye, 5 rye and bread, 6 blank 0, 7 blank 1, 8 rye again. Rye is
    /// bread, "contains" is a way of "holds", blank 0 is filled with rye and contains rye.
    fn told(left: u16, right: u16) -> String {
        let concepts =
            vec![1, 1, 0, 1, 2, 0, 0, 0, 0, 2, 1, 0, 2, 2, 0, 3, 0, 1, 4, 0, 0, 4, 1, 0, 1, 1, 0];
        let inclusions = vec![0, 1, 3, 3];
        let tables = OwnedTables {
            concepts,
            inclusions,
            roles: vec![1, 2],
            variables: 2,
            questions: vec![],
        };
        let words = "name 1 rye\nname 2 bread\nrole 1 contains\nrole 2 holds\n";
        let legend = Legend::read(words).expect("a legend");
        let wording = Wording { tables: &tables, assignment: &[0b101, 0], legend: &legend };
        let lines = tables.lend().derivation(wording.assignment, left, right).expect("below");
        sentences(&wording, &lines).expect("told")
    }

    /// Rules 1 to 8, as the derivations of these pairs use them.
    #[test]
    fn each_rule_has_its_sentence() {
        assert_eq!(told(0, 0), "\"rye\" is below itself\n");
        assert_eq!(told(0, 8), "\"rye\" is below \"rye\", since it is the same name\n");
        assert_eq!(told(0, 2), "\"rye\" is below \"anything\"\n");
        assert_eq!(
            told(5, 1),
            "\"rye and bread\" is below \"bread\", since its second member is\n"
        );
        let both = "\"rye\" is below \"rye and bread\", since it is below both members\n  \
                    \"rye\" is below \"bread\" by inclusion 0\n";
        assert_eq!(told(0, 5), both);
        let wide =
            "\"contains rye\" is below \"holds rye\", since \"contains\" counts as \"holds\"\n";
        assert_eq!(told(3, 4), wide);
        assert_eq!(told(0, 1), "\"rye\" is below \"bread\" by inclusion 0\n");
        let chosen = "\"blank 0\" is below \"rye\", since it is filled with \"rye\"\n";
        assert_eq!(told(6, 0), chosen);
        assert_eq!(
            told(6, 7),
            "\"blank 0\" is below \"blank 1\", which is left empty, so everything is\n"
        );
    }

    #[test]
    fn what_was_shown_is_not_shown_again() {
        // 3 both; 1 both; 0 rye, which is bread by an inclusion
        let concepts = vec![1, 1, 0, 1, 2, 0, 2, 1, 0, 2, 1, 1, 3, 3, 3];
        let tables = OwnedTables { concepts, inclusions: vec![0, 1], ..OwnedTables::default() };
        let wording = Wording { tables: &tables, assignment: &[], legend: &Legend::default() };
        let lines = tables.lend().derivation(&[], 2, 4).expect("below");
        let due = "\"role 1 name 1\" is below \"(role 1 name 2) and (role 1 name 2)\", since it is below both members\n  \
                   \"role 1 name 1\" is below \"role 1 name 2\", since what is inside is\n    \
                   \"name 1\" is below \"name 2\" by inclusion 0\n  \
                   \"role 1 name 1\" is below \"role 1 name 2\", since what is inside is (shown above)\n";
        assert_eq!(sentences(&wording, &lines).expect("told"), due);
    }

    /// Of random tables, every pair that is below: its sentence comes first, and every line that the derivation rests on
    /// has one, but for what is below itself.
    #[test]
    fn derivations_of_random_tables_are_told() {
        let (mut told, mut lines_told) = (0, 0);
        let seed = seed("explain, sentences");
        for k in 0..400 {
            let mut random = Random::for_case(seed, k);
            let drawn = generate::valid(&mut random, Size::Small);
            let assignment = generate::assignment(&mut random, &drawn);
            let lent = drawn.lend();
            let tables = OwnedTables {
                concepts: drawn.concepts.clone(),
                inclusions: drawn.inclusions.clone(),
                questions: drawn.questions.clone(),
                roles: drawn.roles.clone(),
                variables: drawn.variables,
            };
            let words =
                Wording { tables: &tables, assignment: &assignment, legend: &Legend::default() };
            let count = drawn.concept_count() as u16;
            for (left, right) in
                (0..count).flat_map(|left| (0..count).map(move |right| (left, right)))
            {
                let lines = match lent.derivation(&assignment, left, right) {
                    Ok(lines) => lines,
                    Err(_) => continue,
                };
                let said = sentences(&words, &lines).expect("told");
                assert!(said.starts_with(&format!("{} is below ", words.quoted(left))), "{}", said);
                for line in lines.iter().filter(|line| line[1] != line[2]) {
                    let start =
                        format!("{} is below {}", words.quoted(line[1]), words.quoted(line[2]));
                    assert!(said.contains(&start), "{} is not in\n{}", start, said);
                }
                told += 1;
                lines_told += said.lines().count();
            }
        }
        assert!(told > 1000 && lines_told > 2 * told, "{} pairs, {} sentences", told, lines_told);
    }
}
