//! The safe crate on random tables, right and damaged: each operation gives what the library's function gives with buffers as
//! long as wanted, and refuses with its number and place.

use std::fmt::Debug;

use hermitcasket::raw::{self, Answer};
use hermitcasket::{Counted, Interpretation, Refusal, Result, Settings, SubsumptionTable};
use hermitcasket_tests::generate;
use hermitcasket_tests::limits::{
    line_room, ATOM_ROOM, CATALOGUE_ROOMS, MAX_CONCEPTS, MAX_VARIABLES, ROW_BYTES,
};
use hermitcasket_tests::owl;
use hermitcasket_tests::random::{cases, seed, Random, Size};
use hermitcasket_tests::tables::Case;
use hermitcasket_tests::tally::Tally;

const SHARE: usize = 8;

/// The cases of a generator, of all sizes.
fn all(label: &str, generate: fn(&mut Random, Size) -> Case, check: impl Fn(&Case) -> u16) {
    let seed = seed(label);
    let mut tally = Tally::new(label);
    for size in [Size::Small, Size::Medium, Size::Large] {
        for k in 0..(cases(size) / SHARE).max(1) {
            let number = check(&generate(&mut Random::for_case(seed, k), size));
            tally.case();
            tally.note("done", number == 0);
        }
    }
    tally.finish(&[("done", 5..=95)]);
}

/// The same number and place, or the value as it is given.
fn agree<T: Debug + PartialEq>(case: &Case, given: Result<T>, answer: Answer, due: T) {
    let numbered =
        |refusal: Refusal| (refusal.number(), refusal.place, refusal.to_string().contains("{}"));
    let due = match answer.number {
        0 => Ok(due),
        number => Err((number, answer.place, false)),
    };
    assert_eq!(given.map_err(numbered), due, "{}", case);
}

fn fours(numbers: &[u16], count: u64) -> Vec<[u16; 4]> {
    let rows = numbers.chunks_exact(4).map(|row| [row[0], row[1], row[2], row[3]]);
    rows.take(count as usize).collect()
}

/// Room for any number of entries that is accepted.
fn count(case: &Case) -> usize {
    case.tables.concept_count().min(MAX_CONCEPTS)
}

fn settings(case: &Case) -> Settings {
    Settings { permitted: case.settings.permitted.clone(), largest: case.settings.largest.clone() }
}

#[test]
fn tables_agree() {
    all("safe, tables", generate::case, |case| {
        let (tables, (left, right)) = (case.tables.lend(), case.pair);
        let answer = raw::check(tables);
        agree(case, tables.check(), answer, ());
        let mut ids = vec![0; ATOM_ROOM];
        let listed = raw::atoms(tables, &mut ids);
        agree(case, tables.atoms(), listed, ids[..listed.value as usize].to_vec());
        let set = raw::blanks(tables, left);
        agree(case, tables.variables_in(left), set, set.value as u8);
        let mut bytes = vec![0; count(case) * ROW_BYTES];
        let written = raw::subsumption_table(tables, &case.assignment, &mut bytes);
        let table = SubsumptionTable::from_bytes(bytes);
        if written.number == 0 {
            assert_eq!(u64::from(table.marks()), written.value, "{}", case);
        }
        let decided = raw::subsumed(tables, &case.assignment, case.pair);
        if written.number == 0 && decided.number == 0 {
            assert_eq!(table.is_subsumed(left, right), decided.value == 1, "{}", case);
        }
        agree(case, tables.subsumption_table(&case.assignment), written, table);
        let yes = decided.value == 1;
        agree(case, tables.is_subsumed(&case.assignment, left, right), decided, yes);
        answer.number
    });
}

#[test]
fn finders_agree() {
    all("safe, finders", generate::within_case, |case| {
        let (tables, wanted) = (case.tables.lend(), settings(case));
        let room = || vec![0; usize::from(case.tables.variables).min(MAX_VARIABLES)];
        // none is an answer of its own
        let some = |answer: Answer, out: Vec<u64>| match answer.number {
            10 => (Answer::done(0), None),
            _ => (answer, Some(out)),
        };
        let mut out = room();
        let (answer, due) = some(raw::find(tables, &mut out), out);
        agree(case, tables.find_assignment(), answer, due);
        let mut out = room();
        let found = raw::find_within(tables, &wanted.permitted, &wanted.largest, &mut out);
        let (within, due) = some(found, out);
        agree(case, tables.find_within(&wanted), within, due);
        let mut out = room();
        let found =
            raw::find_group(tables, &wanted.permitted, &wanted.largest, case.question, &mut out);
        let (group, due) = some(found, out);
        agree(case, tables.find_group(&wanted, case.question), group, due);
        let mut out = room();
        let found = raw::find_counted(tables, &wanted.permitted, &wanted.largest, 500, &mut out);
        let (given, count) = (tables.find_counted(&wanted, 500), found.value as u32);
        match found.number {
            10 => assert_eq!(given, Ok(Counted::None { count }), "{}", case),
            14 => assert_eq!(given, Ok(Counted::Spent { allowance: count }), "{}", case),
            _ => agree(case, given, found, Counted::Found { assignment: out, count }),
        }
        if within.number == 0 {
            assert!(tables.unrestricted().is_ok(), "{}", case);
        }
        within.number
    });
}

/// The questions as several tables, whose lengths mostly add up.
#[test]
fn batches_agree() {
    all("safe, batches", generate::case, |case| {
        let tables = case.tables.lend();
        let whole = tables.questions.len() as u16;
        let first = whole / 4 * 2;
        let lengths = [first, whole - first - u16::from(case.pair.0 % 8 == 7 && first < whole)];
        let shares = [300, if case.pair.1 % 16 == 3 { 1_000_001 } else { 40 }];
        let width = usize::from(tables.variables).min(MAX_VARIABLES);
        let mut out = vec![0; 2 * width];
        let cards = raw::find_batch(tables, &lengths, &shares, &mut out);
        let answer = Answer::refused(cards.number, cards.place);
        let given = tables.find_batch(&lengths, &shares);
        agree(case, given.clone().map(|batch| batch.left), answer, cards.left);
        for (k, given) in given.map_or(vec![], |batch| batch.answers).into_iter().enumerate() {
            let (answer, count) = (cards.answer(k), cards.counts[k]);
            match answer.number {
                10 => assert_eq!(given, Ok(Counted::None { count }), "{}", case),
                14 => assert_eq!(given, Ok(Counted::Spent { allowance: count }), "{}", case),
                _ => {
                    let assignment = out[k * width..(k + 1) * width].to_vec();
                    agree(case, given, answer, Counted::Found { assignment, count });
                }
            }
        }
        cards.number
    });
}

#[test]
fn derivations_and_chosen_ids_agree() {
    all("safe, derivations", generate::case, |case| {
        let (tables, (left, right)) = (case.tables.lend(), case.pair);
        let mut ids = vec![0; ATOM_ROOM];
        let chosen = raw::chosen(tables, &case.assignment, case.variable, &mut ids);
        let due = ids[..chosen.value as usize].to_vec();
        agree(case, tables.chosen(&case.assignment, case.variable), chosen, due);
        let mut out = vec![0; line_room(count(case))];
        let written = raw::derive(tables, &case.assignment, case.pair, &mut out);
        let lines = fours(&out, written.value);
        agree(case, tables.derivation(&case.assignment, left, right), written, lines.clone());
        // the lines, and what is left of them when the first is gone
        for lines in [&lines[..], lines.get(1..).unwrap_or(&[])] {
            let checked =
                raw::check_derivation(tables, &case.assignment, case.pair, &lines.concat());
            agree(case, tables.check_derivation(&case.assignment, left, right, lines), checked, ());
        }
        written.number
    });
}

#[test]
fn interpretations_agree() {
    all("safe, shown", generate::show_case, |case| {
        let (tables, (left, right)) = (case.tables.lend(), case.pair);
        let wanted = raw::show(tables, &case.assignment, case.pair, &mut []);
        let mut rows = vec![0; if wanted.number == 8 { wanted.place as usize } else { 0 }];
        let shown = raw::show(tables, &case.assignment, case.pair, &mut rows);
        let size = case.tables.concept_count() as u16;
        let due = Interpretation { size, rows: fours(&rows, shown.value) };
        agree(case, tables.countermodel(&case.assignment, left, right), shown, due);
        shown.number
    });
    all("safe, members", generate::belongs_case, |case| {
        let (tables, (concept, element)) = (case.tables.lend(), case.asked);
        let whole = fours(&case.stock.rows, u64::MAX);
        let interpretation = Interpretation { size: case.stock.size, rows: whole.clone() };
        let member =
            raw::belongs(tables, &case.assignment, (case.stock.size, &whole.concat()), case.asked);
        let given = tables.is_member(&case.assignment, &interpretation, concept, element);
        agree(case, given, member, member.value == 1);
        member.number
    });
}

#[test]
fn kept_and_filed_tables_agree() {
    all("safe, held", generate::update_case, |case| {
        let tables = case.tables.lend();
        let told: Vec<[u16; 2]> =
            case.told.chunks_exact(2).map(|pair| [pair[0], pair[1]]).collect();
        let mut bytes = case.held.clone();
        let updated = raw::update_table(tables, &told.concat(), &mut bytes);
        let mut held = SubsumptionTable::from_bytes(case.held.clone());
        agree(case, tables.update_table(&told, &mut held), updated, ());
        assert_eq!(held.bytes(), &bytes[..], "{}", case);
        updated.number
    });
    all("safe, filed", generate::renumber_case, |case| {
        let tables = case.tables.lend();
        let [mut concepts, mut inclusions, mut questions] =
            case.tables.lengths().map(|length| vec![0; length]);
        let moved =
            raw::renumber(tables, &case.order, &mut concepts, &mut inclusions, &mut questions);
        let given = tables.renumber(&case.order);
        let parts = given.map(|given| (given.concepts, given.inclusions, given.questions));
        agree(case, parts, moved, (concepts, inclusions, questions));
        moved.number
    });
}

#[test]
fn catalogues_agree() {
    let seed = seed("safe, catalogues");
    for k in 0..cases(Size::Medium) {
        let mut random = Random::for_case(seed, k);
        let axioms = owl::catalogue(&mut random, Size::Small);
        let mut text = owl::tokens(&axioms).join(" ").into_bytes();
        if random.percent(50) && !text.is_empty() {
            let at = random.below(text.len());
            text[at] = b"(): 1cx"[random.below(7)];
        }
        let [mut concepts, mut inclusions] = CATALOGUE_ROOMS.map(|room| vec![0; room]);
        let read = raw::read_owl(&text, &mut concepts, &mut inclusions);
        concepts.truncate(3 * read.concepts as usize);
        inclusions.truncate(2 * read.inclusions as usize);
        let due = match read.number {
            0 => Ok((concepts, inclusions)),
            number => Err((number, read.place)),
        };
        let given =
            hermitcasket::read_owl(&text).map(|tables| (tables.concepts, tables.inclusions));
        let given = given.map_err(|refusal| (refusal.number(), refusal.place));
        assert_eq!(given, due, "b\"{}\"", text.escape_ascii());
    }
}
