//! hc_renumber: tables under new ids, what 02 promises of them (the list that leads back, one list
//! after another, the subsumption table, fillings), every refusal.

use hermitcasket_tests::capi::{self, Answer};
use hermitcasket_tests::compare;
use hermitcasket_tests::families::FAMILIES;
use hermitcasket_tests::faults::{every_set, renumbering_faults};
use hermitcasket_tests::generate;
use hermitcasket_tests::hard;
use hermitcasket_tests::layout::{self, Relation};
use hermitcasket_tests::limits::*;
use hermitcasket_tests::nested;
use hermitcasket_tests::orders::{composed, identity, inverse, involution, is_rising, rising};
use hermitcasket_tests::planted;
use hermitcasket_tests::random::{cases, full_run, seed, Random, Size};
use hermitcasket_tests::reference::atoms::Twins;
use hermitcasket_tests::tables::{Case, Tables, TablesRef};
use hermitcasket_tests::tally::Tally;

fn case(tables: &Tables, order: &[u16]) -> Case {
    let mut case = Case::new(tables.clone(), &[]);
    case.order = order.to_vec();
    case
}

/// The answer, held against the reference with all that was lent.
fn ask(tables: &Tables, order: &[u16]) -> Answer {
    compare::renumber(&case(tables, order))
}

/// The same with buffers of these lengths.
fn ask_with(tables: &Tables, order: &[u16], rooms: [usize; 3]) -> Answer {
    let mut case = case(tables, order);
    case.renumbered_rooms = rooms;
    compare::renumber(&case)
}

/// The tables as the library writes them.
fn renumbered(tables: &Tables, order: &[u16]) -> Tables {
    let mut after = tables.clone();
    for list in [&mut after.concepts, &mut after.inclusions, &mut after.questions] {
        list.fill(0xa5a5);
    }
    let answer = capi::renumber(
        tables.lend(),
        order,
        &mut after.concepts,
        &mut after.inclusions,
        &mut after.questions,
    );
    assert_eq!(answer, Answer::done(0), "for\n{}", case(tables, order));
    after
}

/// Random tables that are accepted, many with twins, of which any may stand in the pairs.
fn accepted(random: &mut Random, size: Size) -> Tables {
    let at_limits = size == Size::Large && random.percent(30);
    let mut tables = if at_limits { generate::full(random) } else { generate::valid(random, size) };
    if at_limits && random.percent(60) {
        generate::add_role_pairs(random, MAX_ROLE_PAIRS, &mut tables);
    }
    if random.percent(60) {
        let most = random.between(1, 20);
        generate::paste_copies(random, &mut tables, most);
    }
    tables
}

/// Random tables of each size, a share of the cases.
fn each_accepted(name: &str, share: usize, mut run: impl FnMut(Tables, Random)) {
    let seed = seed(name);
    for size in [Size::Small, Size::Medium, Size::Large] {
        for k in 0..(cases(size) / share).max(1) {
            let mut random = Random::for_case(seed, k);
            let tables = accepted(&mut random, size);
            run(tables, random);
        }
    }
}

fn sample() -> Tables {
    let rows = [[1, 5, 0], [1, 7, 0], [2, 1, 0], [1, 9, 0], [4, 0, 0], [3, 1, 4]];
    Tables::new(&rows, &[[2, 3]], &[[5, 3], [2, 4]], 1)
}

/// 01's sample tables with the parts first: 0, 2 and 3 become 0, 1 and 2.
#[test]
fn the_sample_tables() {
    let order = [0, 3, 1, 2, 4, 5];
    let rows = [[1, 5, 0], [2, 1, 0], [1, 9, 0], [1, 7, 0], [4, 0, 0], [3, 3, 4]];
    let filed = Tables::new(&rows, &[[1, 2]], &[[5, 2], [1, 4]], 1);
    assert_eq!(ask(&sample(), &order), Answer::done(0));
    assert_eq!(renumbered(&sample(), &order), filed);
    assert_eq!(renumbered(&filed, &[0, 2, 3, 1, 4, 5]), sample());
    assert_eq!(atoms(&filed), [0, 1, 2]);
    assert_eq!(found(&filed), Some(vec![4]));
}

/// Names, roles and blanks are the same numbers as ids here, and none of them is replaced; nor are
/// the role pairs. Both inner ids of an "and" are, and both sides of each pair.
#[test]
fn only_ids_are_replaced() {
    let rows = [
        [1, 1, 0],
        [1, 0, 0],
        [4, 2, 0],
        [4, 3, 0],
        [2, 1, 0],
        [2, 0, 1],
        [3, 0, 1],
        [3, 2, 5],
        [0, 0, 0],
    ];
    let tables = Tables::new(&rows, &[[0, 4], [5, 5], [8, 0]], &[[2, 0], [1, 3], [7, 6]], 4);
    let tables = tables.with_roles(&[[0, 1], [1, 2], [2, 3]]);
    let order = [2, 4, 0, 1, 6, 5, 8, 7, 3];
    let moved = [
        [4, 2, 0],
        [4, 3, 0],
        [1, 1, 0],
        [0, 0, 0],
        [1, 0, 0],
        [2, 0, 4],
        [2, 1, 2],
        [3, 0, 5],
        [3, 2, 4],
    ];
    let due = Tables::new(&moved, &[[2, 6], [5, 5], [3, 2]], &[[0, 2], [4, 1], [7, 8]], 4);
    assert_eq!(renumbered(&tables, &order), due.with_roles(&[[0, 1], [1, 2], [2, 3]]));
    assert_eq!(ask(&tables, &order), Answer::done(0));
    for (old, &new) in order.iter().enumerate() {
        let after = renumbered(&tables, &order);
        let before = capi::blanks(tables.lend(), old as u16);
        assert_eq!(capi::blanks(after.lend(), new), before, "{}", old);
    }
}

#[test]
fn the_identity_changes_nothing() {
    each_accepted("renumber, identity", 8, |tables, _| {
        let same = identity(tables.concept_count());
        assert_eq!(ask(&tables, &same), Answer::done(0));
        assert_eq!(renumbered(&tables, &same), tables);
    });
    for family in FAMILIES {
        let tables = family.tables_with_role_pairs(MAX_CONCEPTS);
        assert_eq!(renumbered(&tables, &identity(MAX_CONCEPTS)), tables);
    }
}

/// A list that leads back by itself.
#[test]
fn involutions_taken_twice() {
    let mut tally = Tally::new("renumber, involutions");
    each_accepted("renumber, involutions", 8, |tables, mut random| {
        let order = involution(&mut random, &tables);
        assert_eq!(inverse(&order), order);
        assert_eq!(ask(&tables, &order), Answer::done(0));
        let once = renumbered(&tables, &order);
        assert_eq!(ask(&once, &order), Answer::done(0));
        assert_eq!(renumbered(&once, &order), tables, "{:?}", order);
        tally.case();
        tally.note("moved", once != tables);
    });
    tally.finish(&[("moved", 40..=100)]);
}

/// What is written is accepted, and the list that leads back is and restores it exactly.
#[test]
fn the_inverse_restores() {
    let mut tally = Tally::new("renumber, inverse");
    each_accepted("renumber, inverse", 2, |tables, mut random| {
        let order = rising(&mut random, &tables);
        let back = inverse(&order);
        assert_eq!(ask(&tables, &order), Answer::done(0));
        let after = renumbered(&tables, &order);
        assert_eq!(capi::check(after.lend()), Answer::done(0), "for\n{}", after);
        assert_eq!(ask(&after, &back), Answer::done(0));
        assert_eq!(renumbered(&after, &back), tables, "{:?}", order);
        tally.case();
        tally.note("moved", after != tables);
        tally.note("not its own inverse", order != back);
    });
    tally.finish(&[("moved", 50..=100), ("not its own inverse", 40..=100)]);
}

/// One list after another, and the two as one.
#[test]
fn one_after_another_is_the_composed_one() {
    let mut tally = Tally::new("renumber, composed");
    each_accepted("renumber, composed", 2, |tables, mut random| {
        let order = rising(&mut random, &tables);
        let once = renumbered(&tables, &order);
        let next = rising(&mut random, &once);
        let both = composed(&order, &next);
        assert_eq!(ask(&tables, &both), Answer::done(0));
        let twice = renumbered(&once, &next);
        assert_eq!(renumbered(&tables, &both), twice, "{:?}, {:?} of\n{}", order, next, tables);
        tally.case();
        tally.note("other than the other way round", both != composed(&next, &order));
        tally.note("moved", twice != tables);
    });
    tally.finish(&[("other than the other way round", 30..=100), ("moved", 40..=100)]);
}

/// Every list of up to five of the numbers 0 to 4, for four entries.
#[test]
fn every_short_list() {
    // 3 is "2 and 1", where 2 is "some" of 0
    let tables = Tables::new(&[[1, 4, 0], [1, 4, 0], [2, 3, 0], [3, 2, 1]], &[[3, 0]], &[], 0);
    let mut counts = [0; 23];
    for length in 0..=5u32 {
        for number in 0..5usize.pow(length) {
            let digit = |k: u32| (number / 5usize.pow(k) % 5) as u16;
            let order: Vec<u16> = (0..length).map(digit).collect();
            let bad = |&place: &usize| order[place] > 3 || order[..place].contains(&order[place]);
            let wanted = match (0..order.len()).find(bad) {
                Some(place) => (21, place),
                None if order.len() < 4 => (21, order.len()),
                None if order[0] > order[2] => (22, 2),
                None if order[2] > order[3] || order[1] > order[3] => (22, 3),
                None => (0, 0),
            };
            let answer = ask(&tables, &order);
            assert_eq!((answer.number, answer.place), (wanted.0, wanted.1 as u64), "{:?}", order);
            counts[usize::from(answer.number)] += 1;
        }
    }
    // 3 is the last, 0 before 2, and 1 anywhere before 3
    assert_eq!((counts[0], counts[22]), (3, 21));
}

/// A list that the sample's six entries can have.
const GOOD: [u16; 6] = [2, 0, 3, 4, 1, 5];

fn with_number(place: usize, number: u16) -> Vec<u16> {
    let mut order = GOOD.to_vec();
    order[place] = number;
    order
}

/// Numbers that are no ids, in each place: the count, the next ones, and those that are ids in their
/// low bits.
#[test]
fn numbers_that_are_no_ids() {
    assert_eq!(ask(&sample(), &GOOD), Answer::done(0));
    for number in [6, 7, 8, 63, 64, 191, 192, 255, 256, 257, 261, 512, 32768, 65280, 65535] {
        for place in 0..6 {
            let answer = ask(&sample(), &with_number(place, number));
            assert_eq!(answer, Answer::refused(21, place as u64), "{}", number);
        }
    }
    let full = Tables::new(&[[0, 0, 0]; MAX_CONCEPTS], &[], &[], 0);
    for number in [192, 193, 255, 256, 383, 384, 447, 448, 32768, 65344, 65535] {
        for place in [0, 1, 100, 190, 191] {
            let mut order = identity(MAX_CONCEPTS);
            order[place] = number;
            assert_eq!(ask(&full, &order), Answer::refused(21, place as u64), "{}", number);
        }
    }
}

/// The place is the later one's, whichever two are equal.
#[test]
fn numbers_that_stood_before() {
    for place in 0..6 {
        for other in (0..6).filter(|&other| other != place) {
            let answer = ask(&sample(), &with_number(place, GOOD[other]));
            assert_eq!(answer, Answer::refused(21, place.max(other) as u64), "{}", other);
        }
    }
    // three and more of one number, and two numbers twice
    assert_eq!(ask(&sample(), &[2; 6]), Answer::refused(21, 1));
    assert_eq!(ask(&sample(), &[2, 0, 0, 0, 1, 5]), Answer::refused(21, 2));
    assert_eq!(ask(&sample(), &[2, 0, 3, 0, 2, 5]), Answer::refused(21, 3));
    assert_eq!(ask(&sample(), &[2, 0, 3, 2, 0, 5]), Answer::refused(21, 3));
}

/// A list of ids, none twice, that lacks some: its length. Else the number that is wrong comes first.
#[test]
fn lists_that_are_too_short() {
    for length in 0..6 {
        let answer = ask(&sample(), &GOOD[..length]);
        assert_eq!(answer, Answer::refused(21, length as u64), "{} numbers", length);
        for place in 0..length {
            for number in [6, 65535].into_iter().chain(GOOD[..place].iter().copied()) {
                let answer = ask(&sample(), &with_number(place, number)[..length]);
                assert_eq!(answer, Answer::refused(21, place as u64), "{} of {}", number, length);
            }
        }
    }
    let full = generate::full(&mut Random::new(5));
    for length in [0, 1, 128, 190, 191] {
        let answer = ask(&full, &identity(MAX_CONCEPTS)[..length]);
        assert_eq!(answer, Answer::refused(21, length as u64), "{} numbers", length);
    }
}

/// A longer list has a number too many, which is no id or stood before: its place, not the length.
#[test]
fn lists_that_are_too_long() {
    for number in 0..9 {
        for more in [1, 2, 100, 300, 70_000] {
            let order = [&GOOD[..], &vec![number; more]].concat();
            assert_eq!(ask(&sample(), &order), Answer::refused(21, 6), "{} times {}", more, number);
            let early = [&with_number(4, 6)[..], &vec![number; more]].concat();
            assert_eq!(ask(&sample(), &early), Answer::refused(21, 4), "{} times {}", more, number);
        }
    }
    let full = generate::full(&mut Random::new(5));
    for number in [0, 191, 192, 65535] {
        let mut order = identity(MAX_CONCEPTS);
        order.push(number);
        assert_eq!(ask(&full, &order), Answer::refused(21, 192), "{}", number);
    }
    // all numbers there are
    let all: Vec<u16> = (0..=65535).collect();
    assert_eq!(ask(&full, &all), Answer::refused(21, 192));
    assert_eq!(ask(&sample(), &all), Answer::refused(21, 6));
}

/// A number that is no id and one that stood before: the lower place, whichever is there.
#[test]
fn the_order_within_21() {
    for (first, second) in [(2, 4), (2, 5), (3, 5), (4, 5)] {
        let mut order = with_number(first, 6);
        order[second] = GOOD[0];
        assert_eq!(ask(&sample(), &order), Answer::refused(21, first as u64));
        order = with_number(first, GOOD[0]);
        order[second] = 6;
        assert_eq!(ask(&sample(), &order), Answer::refused(21, first as u64));
        // a number that is no id, twice
        order[first] = 6;
        assert_eq!(ask(&sample(), &order), Answer::refused(21, first as u64));
    }
}

/// Each field that holds an inner id alone, and no other field.
#[test]
fn inner_ids_that_would_not_be_smaller() {
    let names = [[1, 999, 0], [1, 998, 0], [0, 0, 0], [4, 7, 0]];
    let with = |row: [u16; 3]| Tables::new(&[&names[..], &[row]].concat(), &[], &[], 8);
    // 4 comes between 0 and 1, or first of all
    let (between, first) = ([0, 2, 3, 4, 1], [1, 2, 3, 4, 0]);
    for (row, place_between, place_first) in [
        ([2, 99, 0], None, Some(4)),
        ([2, 0, 1], Some(4), Some(4)),
        ([3, 0, 0], None, Some(4)),
        ([3, 0, 1], Some(4), Some(4)),
        ([3, 1, 0], Some(4), Some(4)),
        ([3, 3, 3], Some(4), Some(4)),
        ([1, 3, 0], None, None),
        ([4, 3, 0], None, None),
        ([0, 0, 0], None, None),
    ] {
        let due =
            |place: Option<u64>| place.map_or(Answer::done(0), |place| Answer::refused(22, place));
        assert_eq!(ask(&with(row), &between), due(place_between), "{:?}", row);
        assert_eq!(ask(&with(row), &first), due(place_first), "{:?}", row);
    }
}

/// The place is an old id, and the lowest of those: not the lowest new one, nor the inner one.
#[test]
fn the_place_of_22() {
    let rows = [[1, 5, 0], [2, 1, 0], [1, 6, 0], [2, 1, 2], [3, 0, 2]];
    let tables = Tables::new(&rows, &[], &[], 0);
    for (order, wanted) in [
        ([4, 3, 2, 1, 0], Answer::refused(22, 1)),
        ([0, 3, 2, 1, 4], Answer::refused(22, 3)),
        ([0, 1, 3, 4, 2], Answer::refused(22, 4)),
        ([3, 4, 0, 1, 2], Answer::refused(22, 4)),
        ([1, 4, 3, 2, 0], Answer::refused(22, 3)),
        ([2, 0, 3, 4, 1], Answer::refused(22, 1)),
        ([1, 4, 0, 2, 3], Answer::done(0)),
    ] {
        assert_eq!(ask(&tables, &order), wanted, "{:?}", order);
    }
    // a tower has one order only; two neighbours that change places are refused at the higher one
    let tower = nested::tower(190);
    for id in 1..MAX_CONCEPTS {
        let mut order = identity(MAX_CONCEPTS);
        order.swap(id - 1, id);
        let wanted = if is_rising(&tower, &order) {
            Answer::done(0)
        } else {
            Answer::refused(22, id as u64)
        };
        assert_eq!(ask(&tower, &order), wanted, "{}", id);
    }
    let mut turned = identity(MAX_CONCEPTS);
    turned.reverse();
    assert_eq!(ask(&tower, &turned).number, 22);
}

/// Entries, inclusions and questions in turn, each length around the wanted one; what is past the
/// tables in a longer buffer is kept.
#[test]
fn short_and_long_buffers() {
    let wanted = sample().lengths();
    assert_eq!(wanted, [18, 2, 4]);
    let lengths = |wanted: usize| [0, wanted - 1, wanted, wanted + 1, wanted + 70];
    for concepts in lengths(wanted[0]) {
        for inclusions in lengths(wanted[1]) {
            for questions in lengths(wanted[2]) {
                let rooms = [concepts, inclusions, questions];
                let short = (0..3).find(|&k| rooms[k] < wanted[k]);
                let due = short.map_or(Answer::done(0), |k| Answer::refused(8, wanted[k] as u64));
                assert_eq!(ask_with(&sample(), &GOOD, rooms), due, "{:?}", rooms);
            }
        }
    }
    // at the limits; a table that is empty wants no room
    let full = generate::full(&mut Random::new(5));
    let order = identity(MAX_CONCEPTS);
    for (rooms, due) in [
        ([576, 192, 64], Answer::done(0)),
        ([575, 192, 64], Answer::refused(8, 576)),
        ([576, 191, 64], Answer::refused(8, 192)),
        ([576, 192, 63], Answer::refused(8, 64)),
        ([575, 191, 63], Answer::refused(8, 576)),
        ([576, 191, 63], Answer::refused(8, 192)),
        ([0, 0, 0], Answer::refused(8, 576)),
        ([70_000, 70_000, 70_000], Answer::done(0)),
    ] {
        assert_eq!(ask_with(&full, &order, rooms), due, "{:?}", rooms);
    }
    let bare = Tables::new(&[[1, 5, 0], [1, 6, 0]], &[], &[], 0);
    assert_eq!(ask_with(&bare, &[1, 0], [6, 0, 0]), Answer::done(0));
    assert_eq!(ask_with(&bare, &[1, 0], [5, 0, 0]), Answer::refused(8, 6));
}

#[test]
fn no_entries() {
    for variables in [0, 8] {
        let none = Tables::new(&[], &[], &[], variables).with_roles(&[[1, 2]]);
        assert_eq!(ask(&none, &[]), Answer::done(0));
        assert_eq!(ask_with(&none, &[], [3, 2, 2]), Answer::done(0));
        for number in [0, 1, 65535] {
            assert_eq!(ask(&none, &[number]), Answer::refused(21, 0));
            assert_eq!(ask(&none, &[number; 200]), Answer::refused(21, 0));
        }
    }
    // and one
    let one = Tables::new(&[[0, 0, 0]], &[[0, 0]], &[[0, 0]], 0);
    assert_eq!(ask(&one, &[0]), Answer::done(0));
    assert_eq!(ask(&one, &[]), Answer::refused(21, 0));
    assert_eq!(ask(&one, &[1]), Answer::refused(21, 0));
    assert_eq!(ask(&one, &[0, 0]), Answer::refused(21, 1));
}

/// Every set of faults at once: 1 to 6, 16, 7, then 21 by its places, 22, and 8 for each buffer in
/// turn. The pair, the assignment and what is told are not asked for.
#[test]
fn every_set_of_faults() {
    for (mut case, chosen) in every_set(&renumbering_faults()) {
        case.pair = (999, 999);
        case.assignment = vec![u64::MAX; 9];
        case.told = vec![9];
        let wanted = chosen.first().map_or(Answer::done(0), |fault| {
            let (number, place) = fault.refusal();
            Answer::refused(number, place)
        });
        assert_eq!(compare::renumber(&case), wanted, "{:?} in\n{}", chosen, case);
    }
}

#[test]
fn random_cases_agree() {
    let seed = seed("renumber");
    let mut seen = [0; 23];
    let mut tally = Tally::new("renumber");
    for size in [Size::Small, Size::Medium, Size::Large] {
        for k in 0..cases(size) {
            let case = generate::renumber_case(&mut Random::for_case(seed, k), size);
            let answer = compare::renumber(&case);
            seen[usize::from(answer.number)] += 1;
            let moved = case.order != identity(case.tables.concept_count());
            tally.case();
            tally.note("moved", answer.number == 0 && moved);
            tally.note("short", answer.number == 8);
            tally.note("no list of all ids", answer.number == 21);
            tally.note("inner ids not smaller", answer.number == 22);
            tally.note("refused otherwise", ![0, 8, 21, 22].contains(&answer.number));
        }
    }
    let all_seen = (0..9).chain([16, 21, 22]).all(|number| seen[number] > 0);
    assert!(all_seen || !full_run(), "answers 0 to 8, 16, 21 and 22: {:?}", seen);
    tally.finish(&[
        ("moved", 15..=60),
        ("short", 8..=40),
        ("no list of all ids", 5..=30),
        ("inner ids not smaller", 2..=20),
        ("refused otherwise", 15..=60),
    ]);
}

/// Tables and list may be the same numbers in memory.
#[test]
fn inputs_that_overlap() {
    let numbers = [1, 0, 1, 0];
    let rows = [1, 5, 0, 1, 6, 0];
    let tables = TablesRef {
        concepts: &rows,
        inclusions: &numbers[..2],
        questions: &numbers,
        roles: &numbers[1..3],
        variables: 0,
    };
    let (mut concepts, mut inclusions, mut questions) = ([7; 6], [7; 2], [7; 4]);
    let order = &numbers[..2];
    let answer = capi::renumber(tables, order, &mut concepts, &mut inclusions, &mut questions);
    assert_eq!(answer, Answer::done(0));
    assert_eq!((concepts, inclusions, questions), ([1, 6, 0, 1, 5, 0], [0, 1], [0, 1, 0, 1]));
    assert_eq!((numbers, rows), ([1, 0, 1, 0], [1, 5, 0, 1, 6, 0]));
}

/// The atoms that the library lists.
fn atoms(tables: &Tables) -> Vec<u16> {
    let mut ids = [0; ATOM_ROOM];
    let answer = capi::atoms(tables.lend(), &mut ids);
    assert_eq!(answer.number, 0, "{:?} for\n{}", answer, tables);
    ids[..answer.value as usize].to_vec()
}

/// The ids that the library says are chosen for each variable.
fn chosen(tables: &Tables, assignment: &[u64]) -> Vec<Vec<u16>> {
    let of_variable = |variable: u16| {
        let mut ids = [0; ATOM_ROOM];
        let answer = capi::chosen(tables.lend(), assignment, variable, &mut ids);
        assert_eq!(answer.number, 0, "{:?} for\n{}", answer, tables);
        ids[..answer.value as usize].to_vec()
    };
    (0..tables.variables).map(of_variable).collect()
}

/// The choice of the same concepts under new ids: of each chosen id's new one the lowest twin.
/// Whether another than the new one itself was taken.
fn same_concepts(
    tables: &Tables,
    assignment: &[u64],
    order: &[u16],
    after: &Tables,
) -> (Vec<u64>, bool) {
    let list = atoms(after);
    let mut twins = Twins::new(after);
    let mut other = false;
    let mut bit = |id: u16| {
        let new = order[usize::from(id)];
        let lowest = twins.lowest(usize::from(new)) as u16;
        other |= lowest != new;
        let position = list.iter().position(|&atom| atom == lowest);
        1 << position.unwrap_or_else(|| panic!("{} is no atom of\n{}", lowest, after))
    };
    let choices = chosen(tables, assignment);
    let moved = choices.iter().map(|ids| ids.iter().fold(0, |bits, &id| bits | bit(id))).collect();
    (moved, other)
}

/// The subsumption table, and how many marks the library says it has.
fn below(tables: &Tables, assignment: &[u64]) -> (Relation, u64) {
    let mut bytes = vec![0; tables.concept_count() * ROW_BYTES];
    let answer = capi::subsumption_table(tables.lend(), assignment, &mut bytes);
    assert_eq!(answer.number, 0, "{:?} for\n{}", answer, tables);
    (layout::read(&bytes, tables.concept_count()), answer.value)
}

/// As many atoms; and under the same chosen concepts the same table, rows and columns moved. Whether
/// another twin was chosen.
fn agree_below(tables: &Tables, order: &[u16], assignment: &[u64]) -> bool {
    let after = renumbered(tables, order);
    assert_eq!(atoms(&after).len(), atoms(tables).len(), "{:?} of\n{}", order, tables);
    let (moved, other) = same_concepts(tables, assignment, order, &after);
    let choices = [&moved[..], assignment].map(|all| all.iter().map(|bits| bits.count_ones()));
    let [new, old] = choices;
    assert!(new.eq(old), "{:?}, {:?} of\n{}", moved, order, tables);
    let ((before, marks), (now, marks_now)) = (below(tables, assignment), below(&after, &moved));
    assert_eq!(marks, marks_now, "{:?}, {:?} of\n{}", assignment, order, tables);
    let new = |id: usize| usize::from(order[id]);
    for (i, row) in before.iter().enumerate() {
        for (j, &holds) in row.iter().enumerate() {
            let same = now[new(i)][new(j)] == holds;
            assert!(same, "{}, {}: {:?}, {:?} of\n{}", i, j, assignment, order, tables);
        }
    }
    other
}

/// Under any choice, of tables with twins too, whose lowest may be another afterwards.
#[test]
fn the_table_has_rows_and_columns_moved() {
    let mut tally = Tally::new("renumber, below");
    each_accepted("renumber, below", 4, |tables, mut random| {
        let order = rising(&mut random, &tables);
        let assignment = generate::assignment(&mut random, &tables);
        let other = agree_below(&tables, &order, &assignment);
        tally.case();
        tally.note("moved", order != identity(order.len()));
        tally.note("something chosen", assignment.iter().any(|&choice| choice != 0));
        tally.note("another twin chosen", other);
        tally.note("with role pairs", !tables.roles.is_empty());
    });
    tally.finish(&[
        ("moved", 50..=100),
        ("something chosen", 15..=90),
        ("another twin chosen", 4..=60),
        ("with role pairs", 20..=80),
    ]);
}

/// By hand: 1 is a copy of 0 and 3 of 2, and afterwards the copies are the lowest.
#[test]
fn another_lowest_twin() {
    let rows = [[1, 5, 0], [1, 5, 0], [2, 1, 0], [2, 1, 1], [1, 6, 0], [4, 0, 0]];
    let tables = Tables::new(&rows, &[[0, 4], [2, 4]], &[[5, 4]], 1);
    assert_eq!(atoms(&tables), [0, 2, 4]);
    let order = [2, 1, 4, 3, 0, 5];
    let after = renumbered(&tables, &order);
    assert_eq!(atoms(&after), [0, 1, 3]);
    for choice in 0..8 {
        let (moved, other) = same_concepts(&tables, &[choice], &order, &after);
        // the name 6 is now first; the others behind it
        assert_eq!(moved, [(choice >> 2) + ((choice & 3) << 1)]);
        assert_eq!(agree_below(&tables, &order, &[choice]), other);
        assert_eq!(other, choice & 3 != 0);
    }
}

/// Each family at full size, without and with role pairs, several lists each; and tables at every
/// limit at once.
#[test]
fn full_size() {
    let seed = seed("renumber, full size");
    for (k, family) in FAMILIES.into_iter().enumerate() {
        let mut random = Random::for_case(seed, k);
        for tables in [family.tables(MAX_CONCEPTS), family.tables_with_role_pairs(MAX_CONCEPTS)] {
            for _ in 0..8 {
                let order = rising(&mut random, &tables);
                assert_eq!(ask(&tables, &order), Answer::done(0));
                agree_below(&tables, &order, &vec![0; usize::from(tables.variables)]);
            }
        }
    }
    for k in 0..(cases(Size::Large) / 12).max(1) {
        let mut random = Random::for_case(seed, 100 + k);
        let mut tables = generate::full(&mut random);
        generate::add_role_pairs(&mut random, MAX_ROLE_PAIRS, &mut tables);
        let order = rising(&mut random, &tables);
        assert_eq!(ask(&tables, &order), Answer::done(0));
        assert_eq!(tables.lengths(), [576, 192, 64]);
        let assignment = generate::assignment(&mut random, &tables);
        agree_below(&tables, &order, &assignment);
        assert_eq!(atoms(&renumbered(&tables, &order)).len(), MAX_ATOMS);
    }
}

/// The library's first assignment, or none.
fn found(tables: &Tables) -> Option<Vec<u64>> {
    let mut out = vec![0; usize::from(tables.variables)];
    let answer = capi::find(tables.lend(), &mut out);
    let none = answer == Answer::refused(10, 0);
    assert!(none || answer == Answer::done(0), "{:?} for\n{}", answer, tables);
    (!none).then_some(out)
}

/// Whether every question holds, as the library decides them.
fn solves(tables: &Tables, assignment: &[u64]) -> bool {
    let holds = |pair: &[u16]| {
        let answer = capi::subsumed(tables.lend(), assignment, (pair[0], pair[1]));
        assert_eq!(answer.number, 0, "{:?} for\n{}", answer, tables);
        answer.value == 1
    };
    tables.questions.chunks_exact(2).all(holds)
}

/// There is a filling in both cases or in none, and that of each, as the choice of the same concepts,
/// is one of the other. Which is the first may differ.
fn agree_on_filling(tables: &Tables, order: &[u16], tally: &mut Tally) {
    let after = renumbered(tables, order);
    let back = inverse(order);
    let (first, second) = (found(tables), found(&after));
    assert_eq!(first.is_some(), second.is_some(), "{:?} of\n{}", order, tables);
    tally.case();
    tally.note("filled", first.is_some());
    tally.note("none", first.is_none());
    tally.note("with role pairs", !tables.roles.is_empty());
    tally.note("without", tables.roles.is_empty());
    if let (Some(first), Some(second)) = (first, second) {
        let (moved, _) = same_concepts(tables, &first, order, &after);
        assert!(solves(&after, &moved), "{:?}, {:?} of\n{}", first, order, tables);
        let (brought, _) = same_concepts(&after, &second, &back, tables);
        assert!(solves(tables, &brought), "{:?}, {:?} of\n{}", second, order, tables);
        tally.note("something chosen", first.iter().any(|&choice| choice != 0));
        tally.note("another is first", moved != second);
    }
}

/// Of random tables with questions.
#[test]
fn a_filling_exactly_when_there_was_one() {
    let mut tally = Tally::new("renumber, fillings");
    let mut asked = Tally::new("renumber, fillings asked");
    each_accepted("renumber, fillings", 4, |tables, mut random| {
        let is_asked = tables.variables > 0 && !tables.questions.is_empty();
        asked.case();
        asked.note("left out", !is_asked);
        if is_asked {
            let order = rising(&mut random, &tables);
            agree_on_filling(&tables, &order, &mut tally);
        }
    });
    asked.finish(&[("left out", 0..=60)]);
    tally.finish(&[
        ("filled", 20..=80),
        ("none", 20..=80),
        ("with role pairs", 20..=80),
        ("without", 20..=80),
    ]);
}

/// Of problems that need a search, as they are and spread over role pairs, and of the puzzles.
#[test]
fn a_filling_of_a_search_exactly_when_there_was_one() {
    let seed = seed("renumber, searches");
    let mut tally = Tally::new("renumber, searches");
    for shape in [planted::TINY[0], planted::TINY[1], planted::MEDIUM, planted::TOWERS[1]] {
        for k in 0..(cases(Size::Large) / 4).max(1) {
            let mut random = Random::for_case(seed, k);
            let mut tables = planted::problem(&mut random, shape);
            if random.percent(50) && tables.roles.is_empty() {
                tables = generate::spread_roles(&mut random, &tables);
            }
            if random.percent(50) {
                let most = random.between(1, 20);
                generate::paste_copies(&mut random, &mut tables, most);
            }
            let order = rising(&mut random, &tables);
            agree_on_filling(&tables, &order, &mut tally);
        }
    }
    let problems = [hard::puzzles(seed), hard::with_harmless(60), hard::at_the_limits(seed)];
    for (k, problem) in problems.iter().flatten().enumerate() {
        let mut random = Random::for_case(seed, k);
        let order = rising(&mut random, &problem.tables);
        agree_on_filling(&problem.tables, &order, &mut tally);
    }
    tally.finish(&[
        ("filled", 20..=80),
        ("none", 20..=80),
        ("something chosen", 15..=80),
        ("another is first", 2..=80),
        ("with role pairs", 20..=80),
        ("without", 20..=80),
    ]);
}

/// A call leaves nothing behind: one list, another, a refused call, and the first again.
#[test]
fn calls_do_not_touch_each_other() {
    let mut moved = 0;
    each_accepted("renumber, in a row", 16, |tables, mut random| {
        let (one, two) = (rising(&mut random, &tables), rising(&mut random, &tables));
        let first = renumbered(&tables, &one);
        let other = renumbered(&tables, &two);
        let long = [&one[..], &[0]].concat();
        assert_eq!(ask(&tables, &long).number, 21);
        assert_eq!(renumbered(&tables, &one), first, "{:?}, {:?} of\n{}", one, two, tables);
        moved += usize::from(first != other);
    });
    assert!(moved > 0, "no list changed anything");
}
