//! The yardstick is right too: the plain implementation held against the reference.

use hermitcasket_bench::checks::{Refusal, Stock};
use hermitcasket_bench::functional_syntax::read_owl;
use hermitcasket_bench::search::find;
use hermitcasket_bench::{
    atoms, belongs, check, lend, renumber, show, subsumed, subsumption_table, update_table,
};
use hermitcasket_tests::generate;
use hermitcasket_tests::limits::CATALOGUE_ROOMS;
use hermitcasket_tests::owl;
use hermitcasket_tests::random::{cases, seed, Random, Size};
use hermitcasket_tests::reference;
use hermitcasket_tests::tables::{Case, Tables};

fn numbered<T>(result: Result<T, reference::Refusal>) -> Result<T, Refusal> {
    result.map_err(|refusal| (refusal.number, refusal.place))
}

fn agree(case: &Case) {
    let tables = &case.tables;
    assert_eq!(check(lend(tables)), numbered(reference::check(tables)), "{}", case);

    let mut list = vec![0; case.atom_room];
    let listed = atoms(lend(tables), &mut list).map(|count| list[..count].to_vec());
    assert_eq!(listed, numbered(reference::atoms(tables, case.atom_room)), "{}", case);

    let mut bytes = vec![0; case.table_room];
    let written = subsumption_table(lend(tables), &case.assignment, &mut bytes);
    bytes.truncate(tables.concept_count() * 24);
    let expected = reference::subsumption_table(tables, &case.assignment, case.table_room);
    let written = written.map(|marks| reference::Table { rows: bytes, marks });
    assert_eq!(written, numbered(expected), "{}", case);

    let decided = subsumed(lend(tables), &case.assignment, case.pair);
    let expected = reference::subsumed(tables, &case.assignment, case.pair);
    assert_eq!(decided, numbered(expected), "{}", case);

    let mut first = vec![0; case.match_room];
    let found = find(lend(tables), &mut first);
    first.truncate(usize::from(tables.variables));
    let expected = reference::find(tables, case.match_room);
    assert_eq!(found.map(|()| first), numbered(expected), "{}", case);
}

#[test]
fn random_tables_agree() {
    let seed = seed("plain implementation");
    for size in [Size::Small, Size::Medium, Size::Large] {
        for k in 0..(cases(size) / 4).max(1) {
            agree(&generate::case(&mut Random::for_case(seed, k), size));
        }
    }
}

#[test]
fn shown_interpretations_agree() {
    let seed = seed("plain implementation, shown");
    for size in [Size::Small, Size::Medium, Size::Large] {
        for k in 0..(cases(size) / 4).max(1) {
            let case = generate::show_case(&mut Random::for_case(seed, k), size);
            let tables = &case.tables;
            let mut rows = vec![0; case.row_room];
            let shown = show(lend(tables), &case.assignment, case.pair, &mut rows);
            let shown = shown.map(|count| rows[..4 * count as usize].to_vec());
            let expected = reference::show(tables, &case.assignment, case.pair, case.row_room);
            assert_eq!(shown, numbered(expected), "{}", case);
        }
    }
}

#[test]
fn members_agree() {
    let seed = seed("plain implementation, members");
    for size in [Size::Small, Size::Medium, Size::Large] {
        for k in 0..(cases(size) / 4).max(1) {
            let case = generate::belongs_case(&mut Random::for_case(seed, k), size);
            let (tables, assignment) = (&case.tables, &case.assignment);
            let stock = Stock { size: case.stock.size, rows: &case.stock.rows };
            let member = belongs(lend(tables), assignment, stock, case.asked);
            let expected = reference::belongs(tables, assignment, &case.stock, case.asked);
            assert_eq!(member, numbered(expected), "{}", case);
        }
    }
}

#[test]
fn held_tables_agree() {
    let seed = seed("plain implementation, held tables");
    for size in [Size::Small, Size::Medium, Size::Large] {
        for k in 0..(cases(size) / 4).max(1) {
            let case = generate::update_case(&mut Random::for_case(seed, k), size);
            let mut table = case.held.clone();
            let done = update_table(lend(&case.tables), &case.told, &mut table);
            let expected = reference::update_table(&case.tables, &case.told, &case.held);
            let due = expected.clone().unwrap_or(case.held.clone());
            assert_eq!(done, numbered(expected.map(|_| ())), "{}", case);
            assert!(table == due, "{}", case);
        }
    }
}

#[test]
fn new_ids_agree() {
    let seed = seed("plain implementation, new ids");
    for size in [Size::Small, Size::Medium, Size::Large] {
        for k in 0..(cases(size) / 4).max(1) {
            let case = generate::renumber_case(&mut Random::for_case(seed, k), size);
            let (tables, rooms) = (&case.tables, case.renumbered_rooms);
            let [mut concepts, mut inclusions, mut questions] = rooms.map(|room| vec![0; room]);
            let out = [&mut concepts[..], &mut inclusions[..], &mut questions[..]];
            let after = renumber(lend(tables), &case.order, out).map(|()| {
                let mut lists = [concepts, inclusions, questions];
                let lengths = tables.lengths();
                lists.iter_mut().zip(lengths).for_each(|(list, length)| list.truncate(length));
                let [concepts, inclusions, questions] = lists;
                Tables { concepts, inclusions, questions, ..tables.clone() }
            });
            let expected = reference::renumber(tables, &case.order, rooms);
            assert_eq!(after, numbered(expected), "{}", case);
        }
    }
}

/// Catalogues and what is left of them when a token or a byte is at fault.
#[test]
fn catalogues_agree() {
    let agree = |text: &[u8], rooms: [usize; 2]| {
        let [mut concepts, mut inclusions] = rooms.map(|room| vec![0; room]);
        let read = read_owl(text, &mut concepts, &mut inclusions).map(|(count, axioms)| {
            concepts.truncate(3 * count);
            inclusions.truncate(2 * axioms);
            Tables { concepts, inclusions, ..Tables::default() }
        });
        let expected = numbered(reference::read_owl(text, rooms));
        assert_eq!(read, expected, "b\"{}\"", text.escape_ascii());
    };
    let seed = seed("plain implementation, catalogues");
    for size in [Size::Small, Size::Medium, Size::Large] {
        for k in 0..(cases(size) / 2).max(1) {
            let mut random = Random::for_case(seed, k);
            let axioms = owl::catalogue(&mut random, size);
            let mut words = owl::tokens(&axioms);
            if random.percent(50) && !words.is_empty() {
                let (at, to) = (random.below(words.len()), random.below(words.len()));
                match random.below(3) {
                    0 => words.swap(at, to),
                    1 => words.insert(at, words[to].clone()),
                    _ => drop(words.remove(at)),
                }
            }
            let mut text = owl::spaced(&mut random, &words);
            if random.percent(30) && !text.is_empty() {
                let at = random.below(text.len());
                text[at] = *random.pick(b" ()\t:cr0,\xff");
            }
            agree(&text, CATALOGUE_ROOMS);
        }
    }
    for (_, text) in owl::at_the_limits() {
        agree(&text, CATALOGUE_ROOMS);
        agree(&[&text[..], b"SubClassOf(:c1 :c2)SubClassOf(:c1 :c2)"].concat(), CATALOGUE_ROOMS);
        agree(&text, [575, 191]);
        agree(&text, [576, 191]);
    }
    let deep = owl::Axiom { left: owl::tower(32, 1, owl::Class::Thing), right: owl::Class::Thing };
    agree(&owl::lines(&[deep]), CATALOGUE_ROOMS);
}
