//! hc_update_table: the marks that follow from those held, all other bits kept, what 02 promises of
//! a table that was right before, every refusal.

use std::collections::BTreeSet;

use hermitcasket_tests::capi::{self, Answer};
use hermitcasket_tests::compare;
use hermitcasket_tests::damage;
use hermitcasket_tests::families::FAMILIES;
use hermitcasket_tests::faults::{every_set, updating_faults};
use hermitcasket_tests::generate;
use hermitcasket_tests::layout;
use hermitcasket_tests::limits::{MAX_CONCEPTS, MAX_INCLUSIONS, MAX_ROLE_PAIRS, ROW_BYTES};
use hermitcasket_tests::nested;
use hermitcasket_tests::random::{cases, full_run, seed, Random, Size};
use hermitcasket_tests::reference::atoms;
use hermitcasket_tests::shift::{held_marks, held_table, older, told, Shift};
use hermitcasket_tests::tables::{Case, Tables};
use hermitcasket_tests::tally::Tally;

type Pair = (usize, usize);

fn case(tables: &Tables, told: &[u16], held: &[u8]) -> Case {
    let mut case = Case::new(tables.clone(), &[]);
    case.told = told.to_vec();
    case.held = held.to_vec();
    case
}

/// The answer, held against the reference with all that was lent.
fn ask(tables: &Tables, told: &[u16], held: &[u8]) -> Answer {
    compare::update_table(&case(tables, told, held))
}

/// The bytes as the library leaves them.
fn updated(tables: &Tables, told: &[u16], held: &[u8]) -> Vec<u8> {
    let mut table = held.to_vec();
    let answer = capi::update_table(tables.lend(), told, &mut table);
    assert_eq!(answer, Answer::done(0), "for\n{}", case(tables, told, held));
    table
}

/// A table without a mark.
fn empty(tables: &Tables) -> Vec<u8> {
    vec![0; tables.concept_count() * ROW_BYTES]
}

/// A table with these marks and no others.
fn holding(tables: &Tables, pairs: &[Pair]) -> Vec<u8> {
    let mut bytes = empty(tables);
    let mut marks = layout::read(&bytes, tables.concept_count());
    pairs.iter().for_each(|&(i, j)| marks[i][j] = true);
    layout::write(&mut bytes, &marks);
    bytes
}

fn marked(tables: &Tables, bytes: &[u8]) -> BTreeSet<Pair> {
    let marks = layout::read(bytes, tables.concept_count());
    let of_row = |i: usize| (0..marks.len()).map(move |j| (i, j));
    (0..marks.len()).flat_map(of_row).filter(|&(i, j)| marks[i][j]).collect()
}

/// The table made afresh.
fn fresh(tables: &Tables, assignment: &[u64]) -> Vec<u8> {
    let mut bytes = empty(tables);
    let answer = capi::subsumption_table(tables.lend(), assignment, &mut bytes);
    assert_eq!(answer.number, 0, "{:?} for\n{}", answer, tables);
    bytes
}

/// The marks that these bring beside those that any table gets, written here by hand.
fn expect(brought: &[Pair], tables: &Tables, told: &[u16], marks: &[Pair]) {
    let held = holding(tables, marks);
    assert_eq!(ask(tables, told, &held), Answer::done(0));
    let mut known = marked(tables, &updated(tables, told, &empty(tables)));
    known.extend(marks);
    let after = marked(tables, &updated(tables, told, &held));
    let new: Vec<Pair> = after.difference(&known).copied().collect();
    assert_eq!(new, brought, "{:?} {:?} of\n{}", marks, told, tables);
}

/// Equal ids, names of one name, top, and blanks that choose nothing need no mark before them.
#[test]
fn marks_that_every_table_gets() {
    let rows = [[1, 5, 0], [1, 5, 0], [1, 6, 0], [0, 0, 0], [4, 0, 0]];
    let tables = Tables::new(&rows, &[], &[], 1);
    let bytes = updated(&tables, &[], &empty(&tables));
    let firsts: Vec<u8> = bytes.chunks_exact(ROW_BYTES).map(|row| row[0]).collect();
    assert_eq!(firsts, [0b11011, 0b11011, 0b11100, 0b11000, 0b11000]);
    assert_eq!(bytes, fresh(&tables, &[0]));
    assert_eq!(ask(&tables, &[], &empty(&tables)), Answer::done(0));
}

/// 01's sample tables: the choices {3} and none, over a table without a mark and over each other's.
#[test]
fn the_sample_tables() {
    let rows = [[1, 5, 0], [1, 7, 0], [2, 1, 0], [1, 9, 0], [4, 0, 0], [3, 1, 4]];
    let tables = Tables::new(&rows, &[[2, 3]], &[[5, 3], [2, 4]], 1);
    let (pastry, top) = (fresh(&tables, &[4]), fresh(&tables, &[0]));
    let firsts: Vec<u8> = pastry.chunks_exact(ROW_BYTES).map(|row| row[0]).collect();
    assert_eq!(firsts, [1, 2, 28, 24, 24, 58]);
    for (told, due) in [(&[0, 3][..], &pastry), (&[], &top)] {
        assert_eq!(&updated(&tables, told, &empty(&tables)), due);
        assert_eq!(&updated(&tables, told, due), due);
    }
    // what holds under top stays: all is below the blank, and then below "butter and the blank"
    let both = marked(&tables, &updated(&tables, &[0, 3], &top));
    let more: BTreeSet<Pair> = both.difference(&marked(&tables, &pastry)).copied().collect();
    assert_eq!(more, BTreeSet::from([(0, 4), (1, 4), (1, 5)]));
    assert_eq!(ask(&tables, &[0, 3], &top), Answer::done(0));
}

/// Rules 3 and 4, and no step from the whole to its members.
#[test]
fn marks_through_conjunctions() {
    // 0 and 1 names, 2 "0 and 1", 3 a name
    let tables = Tables::new(&[[1, 5, 0], [1, 6, 0], [3, 0, 1], [1, 7, 0]], &[], &[], 0);
    expect(&[(2, 3)], &tables, &[], &[(0, 3)]);
    expect(&[(2, 3)], &tables, &[], &[(1, 3)]);
    expect(&[], &tables, &[], &[(2, 3)]);
    expect(&[], &tables, &[], &[(3, 0)]);
    expect(&[], &tables, &[], &[(3, 1)]);
    expect(&[(3, 2)], &tables, &[], &[(3, 0), (3, 1)]);
    expect(&[], &tables, &[], &[(3, 2)]);
    expect(&[(0, 2)], &tables, &[], &[(0, 1)]);
}

/// Rule 5, from the inner ids to the outer ones and from the narrow role to the wide one.
#[test]
fn marks_through_existentials() {
    // 0 and 1 names; 2 and 3 "some" of them by role 1, 4 and 5 by role 2
    let rows = [[1, 5, 0], [1, 6, 0], [2, 1, 0], [2, 1, 1], [2, 2, 0], [2, 2, 1]];
    let apart = Tables::new(&rows, &[], &[], 0);
    expect(&[(2, 3), (4, 5)], &apart, &[], &[(0, 1)]);
    expect(&[], &apart, &[], &[(2, 3), (4, 5), (2, 0), (1, 3)]);
    let wider = apart.with_roles(&[[1, 2]]);
    expect(&[(2, 3), (2, 5), (4, 5)], &wider, &[], &[(0, 1)]);
    expect(&[(3, 2), (3, 4), (5, 4)], &wider, &[], &[(1, 0)]);
    expect(&[], &wider, &[], &[(2, 3), (4, 3), (5, 2)]);
    let circle = wider.with_roles(&[[2, 7], [7, 1]]);
    expect(&[(2, 3), (2, 5), (4, 3), (4, 5)], &circle, &[], &[(0, 1)]);
}

/// Rule 6 on both sides; two marks that meet elsewhere than in an inclusion bring nothing.
#[test]
fn marks_through_inclusions() {
    let names = [[1, 5, 0], [1, 6, 0], [1, 7, 0], [1, 8, 0]];
    let tables = Tables::new(&names, &[[1, 2]], &[], 0);
    expect(&[(0, 2)], &tables, &[], &[(0, 1)]);
    expect(&[(1, 3)], &tables, &[], &[(2, 3)]);
    expect(&[(0, 2), (0, 3), (1, 3)], &tables, &[], &[(0, 1), (2, 3)]);
    expect(&[(1, 3)], &tables, &[], &[(0, 2), (2, 3)]);
    expect(&[(0, 2)], &tables, &[], &[(0, 1), (1, 3)]);
    expect(&[], &tables, &[], &[(2, 1), (3, 2), (1, 0)]);
    // of an entry in itself, and none at all
    let itself = Tables::new(&names, &[[1, 1]], &[], 0);
    expect(&[(0, 2)], &itself, &[], &[(0, 1), (1, 2), (2, 3)]);
    let none = Tables::new(&names, &[], &[], 0);
    expect(&[], &none, &[], &[(0, 1), (1, 2), (2, 3), (3, 0)]);
    // questions bring no marks
    let asked = Tables::new(&names, &[], &[[1, 2], [1, 1]], 0);
    expect(&[], &asked, &[], &[(0, 1), (1, 2), (2, 3)]);
}

/// Rules 7 and 8 for a blank of two parts and one of none.
#[test]
fn marks_through_blanks() {
    // 0, 1 and 2 names, of which 0 and 1 are parts; 3 and 4 blanks
    let rows = [[1, 5, 0], [1, 6, 0], [1, 7, 0], [4, 0, 0], [4, 1, 0]];
    let tables = Tables::new(&rows, &[], &[[2, 0], [2, 1]], 2);
    let told = [0, 0, 0, 1];
    expect(&[(3, 2)], &tables, &told, &[(0, 2)]);
    expect(&[(3, 2)], &tables, &told, &[(1, 2)]);
    expect(&[], &tables, &told, &[(3, 2), (4, 2), (2, 3), (4, 0)]);
    expect(&[], &tables, &told, &[(2, 0)]);
    expect(&[], &tables, &told, &[(2, 1)]);
    expect(&[(2, 3)], &tables, &told, &[(2, 0), (2, 1)]);
    expect(&[(0, 3)], &tables, &told, &[(0, 1)]);
    expect(&[(2, 3)], &tables, &[0, 1], &[(2, 1)]);
    expect(&[], &tables, &[0, 1], &[(2, 0), (0, 2)]);
}

/// "Some" and "and" of the entries before them, never more than two deep, and inclusions over them.
fn mixed(count: u16) -> Tables {
    let row = |id: u16| match id % 3 {
        0 => [1, id, 0],
        1 => [2, 7, id - 1],
        _ => [3, id - 2, id - 1],
    };
    let rows: Vec<[u16; 3]> = (0..count).map(row).collect();
    let last = count.saturating_sub(1);
    let pairs: Vec<[u16; 2]> = (0..count.min(8)).map(|id| [id, last - id]).collect();
    Tables::new(&rows, &pairs, &[], 0)
}

/// Bits past the last column and bytes past the last row are kept, and the marks are the same
/// whatever they are.
#[test]
fn other_bits_are_kept_and_not_read() {
    let mut random = Random::new(7);
    for count in [0, 1, 2, 7, 8, 9, 63, 64, 65, 127, 128, 129, 191, 192] {
        let tables = mixed(count);
        let marks = held_marks(&mut random, &tables, &[]);
        for more in [0, 1, 23, 24, 25, 500, 5000] {
            let room = usize::from(count) * ROW_BYTES + more;
            let noise = (0..room).map(|_| random.number() as u8).collect();
            let mut seen = Vec::new();
            for mut held in [vec![0; room], vec![0xff; room], noise] {
                layout::write(&mut held, &marks);
                assert_eq!(ask(&tables, &[], &held), Answer::done(0));
                seen.push(marked(&tables, &updated(&tables, &[], &held)));
            }
            assert!(seen.iter().all(|marks| marks == &seen[0]), "{} and {} bytes", count, more);
        }
    }
}

/// Every length up to the wanted one is refused with it.
#[test]
fn short_and_long_buffers() {
    let tables = Tables::new(&[[1, 5, 0], [0, 0, 0]], &[], &[], 0);
    for room in 0..48 {
        let answer = ask(&tables, &[], &vec![0xa5; room]);
        assert_eq!(answer, Answer::refused(8, 48), "{} bytes", room);
    }
    for room in [48, 49, 72, 5000, 70_000] {
        assert_eq!(ask(&tables, &[], &vec![0xa5; room]), Answer::done(0), "{} bytes", room);
    }
    let full = mixed(192);
    for (room, wanted) in [(4607, Answer::refused(8, 4608)), (4608, Answer::done(0))] {
        assert_eq!(ask(&full, &[], &vec![0; room]), wanted, "{} bytes", room);
    }
    for room in [0, 1, 24, 5000] {
        let none = Tables::new(&[], &[], &[], 8);
        assert_eq!(ask(&none, &[], &vec![0xa5; room]), Answer::done(0), "{} bytes", room);
    }
}

/// The parts are 0, 2 and 3: 1 is a copy of 0, and 4 of 3, and these stand in the inclusion; 5 and
/// 6 are of other kinds, 7 and 10 are blanks and 9 holds one, 8 stands on a left side only.
fn told_tables() -> Tables {
    let rows = [
        [1, 5, 0],
        [1, 5, 0],
        [1, 6, 0],
        [2, 1, 0],
        [2, 1, 1],
        [3, 2, 2],
        [0, 0, 0],
        [4, 0, 0],
        [1, 7, 0],
        [2, 2, 7],
        [4, 1, 0],
    ];
    Tables::new(&rows, &[[1, 4]], &[[0, 5], [8, 7], [8, 9]], 2)
}

const TOLD_BYTES: usize = 11 * ROW_BYTES;

const GOOD: [u16; 12] = [0, 0, 0, 2, 1, 3, 1, 0, 0, 2, 0, 0];

/// The good pairs with one pair in the place of another.
fn with_pair(place: usize, pair: [u16; 2]) -> Vec<u16> {
    let mut told = GOOD.to_vec();
    told[2 * place..2 * place + 2].copy_from_slice(&pair);
    told
}

/// Any order, and pairs again: the same choice.
#[test]
fn pairs_in_any_order_and_again() {
    let tables = told_tables();
    let held = holding(&tables, &[(8, 7), (2, 8), (7, 9), (5, 4)]);
    let due = updated(&tables, &[0, 0, 0, 2, 1, 3, 1, 0], &held);
    let mut pairs: Vec<&[u16]> = GOOD.chunks_exact(2).collect();
    for k in 0..20 {
        let told = pairs.concat();
        assert_eq!(ask(&tables, &told, &held), Answer::done(0));
        assert_eq!(updated(&tables, &told, &held), due, "{:?}", told);
        assert_eq!(updated(&tables, &told.repeat(k + 1), &held), due, "{:?}", told);
        Random::new(k as u64).shuffle(&mut pairs);
    }
    // each choice by its positions: 0, 2 and 3 are the first three
    for (told, choices) in [
        (&[][..], [0, 0]),
        (&[1, 2], [0, 2]),
        (&[1, 3, 0, 0], [1, 4]),
        (&[0, 3, 0, 2, 0, 0], [7, 0]),
        (&GOOD, [3, 5]),
    ] {
        let bytes = updated(&tables, told, &empty(&tables));
        assert_eq!(bytes, fresh(&tables, &choices), "{:?}", told);
    }
}

/// A copy is no part, whether or not it stands in an inclusion; nor is another kind, a left side,
/// or what is no entry.
#[test]
fn ids_that_are_no_parts() {
    let tables = told_tables();
    let held = vec![0x3c; TOLD_BYTES];
    for id in [0, 2, 3] {
        assert_eq!(ask(&tables, &with_pair(4, [1, id]), &held), Answer::done(0), "{}", id);
    }
    let others = [11, 12, 63, 64, 191, 192, 255, 256, 258, 512, 32770, 65280, 65535];
    for id in [1].into_iter().chain(4..11).chain(others) {
        for place in 0..6 {
            let answer = ask(&tables, &with_pair(place, [1, id]), &held);
            assert_eq!(answer, Answer::refused(9, place as u64), "{}", id);
        }
    }
    // without any part there is nothing to tell
    let none = Tables::new(&[[1, 5, 0]], &[], &[], 1);
    assert_eq!(ask(&none, &[0, 0], &empty(&none)), Answer::refused(9, 0));
    assert_eq!(ask(&none, &[], &empty(&none)), Answer::done(0));
}

#[test]
fn blanks_that_are_not_there() {
    let held = vec![0x3c; TOLD_BYTES];
    for blank in [2, 3, 7, 8, 255, 256, 257, 512, 32768, 65535] {
        for place in 0..6 {
            let answer = ask(&told_tables(), &with_pair(place, [blank, 0]), &held);
            assert_eq!(answer, Answer::refused(9, place as u64), "{}", blank);
        }
    }
    // blanks that no entry holds may be told, and where there is none nothing may
    let idle = Tables { variables: 8, ..told_tables() };
    assert_eq!(ask(&idle, &[7, 3, 2, 0], &held), Answer::done(0));
    assert_eq!(ask(&idle, &[7, 3, 8, 0], &held), Answer::refused(9, 1));
    let without = Tables::new(&[[1, 5, 0]], &[[0, 0]], &[], 0);
    assert_eq!(ask(&without, &[0, 0], &empty(&without)), Answer::refused(9, 0));
}

/// The lowest place wins, whichever of the two is wrong there; a ragged list comes before all, and
/// the buffer after all.
#[test]
fn the_order_within_9_and_around_it() {
    let tables = told_tables();
    let (held, short) = (vec![0x3c; TOLD_BYTES], vec![0x3c; TOLD_BYTES - 1]);
    let mut told = with_pair(3, [0, 1]);
    for (pair, place) in [([2, 0], 3), ([0, 1], 3)] {
        told[10..12].copy_from_slice(&pair);
        assert_eq!(ask(&tables, &told, &held), Answer::refused(9, place));
        assert_eq!(ask(&tables, &told, &short), Answer::refused(9, place));
    }
    told[2..4].copy_from_slice(&[2, 2]);
    assert_eq!(ask(&tables, &told, &short), Answer::refused(9, 1));
    told.pop();
    assert_eq!(ask(&tables, &told, &short), Answer::refused(9, 0));
    assert_eq!(ask(&tables, &GOOD, &short), Answer::refused(8, TOLD_BYTES as u64));
    for ragged in [&GOOD[..1], &GOOD[..3], &GOOD[..11], &[65535], &[9, 9, 9]] {
        assert_eq!(ask(&tables, ragged, &held), Answer::refused(9, 0), "{:?}", ragged);
        assert_eq!(ask(&tables, ragged, &[]), Answer::refused(9, 0), "{:?}", ragged);
    }
    // what is wrong with the tables comes first
    let mut seven = Tables::new(&[], &[], &[], 1);
    seven.concepts = (0..65).flat_map(|name| [1, name, 0]).collect();
    seven.inclusions = (0..65).flat_map(|id| [id, id]).collect();
    assert_eq!(ask(&seven, &[9], &[]), Answer::refused(7, 64));
    assert_eq!(ask(&seven.clone().with_roles(&[[100, 0]]), &[9], &[]), Answer::refused(16, 0));
    seven.inclusions.truncate(128);
    assert_eq!(ask(&seven, &[9], &[]), Answer::refused(9, 0));
    assert_eq!(ask(&seven, &[0, 64], &[]), Answer::refused(9, 0));
    assert_eq!(ask(&seven, &[0, 63], &[]), Answer::refused(8, 65 * 24));
}

/// What is a part is judged with the new inclusion among the tables.
#[test]
fn parts_of_the_tables_as_given() {
    let rows = [[1, 5, 0], [1, 6, 0], [2, 3, 1], [4, 0, 0]];
    let older = Tables::new(&rows, &[], &[], 1);
    let newer = Tables::new(&rows, &[[0, 2]], &[], 1);
    let asked = Tables::new(&rows, &[], &[[3, 2]], 1);
    for (id, by_question) in [(0, false), (1, true), (2, true)] {
        assert_eq!(ask(&older, &[0, id], &empty(&older)), Answer::refused(9, 0), "{}", id);
        assert_eq!(ask(&newer, &[0, id], &empty(&newer)), Answer::done(0), "{}", id);
        assert_eq!(ask(&asked, &[0, id], &empty(&asked)).number == 0, by_question, "{}", id);
    }
}

/// Long lists of pairs, and a place past what sixteen bits count.
#[test]
fn places_past_sixteen_bits() {
    let tables = told_tables();
    let held = holding(&tables, &[(8, 7), (2, 8)]);
    for place in [511, 512, 32_768, 65_535, 65_536, 65_540, 200_000] {
        let mut told = [0, 2].repeat(place);
        told.extend([1, 3]);
        let due = updated(&tables, &[0, 2, 1, 3], &held);
        assert_eq!(updated(&tables, &told, &held), due, "{}", place);
        for bad in [[2, 3], [1, 4]] {
            told[2 * place..].copy_from_slice(&bad);
            let wanted = Answer::refused(9, place as u64);
            assert_eq!(ask(&tables, &told, &held), wanted, "{}", place);
        }
    }
}

/// Every set of faults at once: 1 to 6, 16, 7, then 9 with the ragged list first, then 8. The pair
/// and the assignment are not asked for.
#[test]
fn every_set_of_faults() {
    for (mut case, chosen) in every_set(&updating_faults()) {
        case.pair = (999, 999);
        case.assignment = vec![u64::MAX; 9];
        let wanted = chosen.first().map_or(Answer::done(0), |fault| {
            let (number, place) = fault.refusal();
            Answer::refused(number, place)
        });
        assert_eq!(compare::update_table(&case), wanted, "{:?} in\n{}", chosen, case);
    }
}

#[test]
fn random_cases_agree() {
    let seed = seed("update");
    let mut seen = [0; 17];
    let mut tally = Tally::new("update");
    for size in [Size::Small, Size::Medium, Size::Large] {
        for k in 0..cases(size) {
            let case = generate::update_case(&mut Random::for_case(seed, k), size);
            let answer = compare::update_table(&case);
            seen[usize::from(answer.number)] += 1;
            let done = answer.number == 0;
            let same = done && updated(&case.tables, &case.told, &case.held) == case.held;
            tally.case();
            tally.note("marks added", done && !same);
            tally.note("nothing added", same);
            tally.note("short", answer.number == 8);
            tally.note("told pairs refused", answer.number == 9);
            tally.note("refused otherwise", ![0, 8, 9].contains(&answer.number));
        }
    }
    let all_seen = (0..10).chain([16]).all(|number| seen[number] > 0);
    assert!(all_seen || !full_run(), "answers 0 to 9 and 16: {:?}", seen);
    tally.finish(&[
        ("marks added", 20..=70),
        ("nothing added", 5..=40),
        ("short", 3..=30),
        ("told pairs refused", 2..=20),
        ("refused otherwise", 15..=60),
    ]);
}

/// The table of before becomes, byte for byte, the one made afresh, and stays that. Both tables.
fn agree(shift: &Shift) -> (Vec<u8>, Vec<u8>) {
    let held = fresh(&shift.older, &shift.before);
    let due = fresh(&shift.newer, &shift.after);
    for table in [&held, &due] {
        let same = updated(&shift.newer, &shift.told, table) == due;
        assert!(same, "for\n{}\nbefore\n{}", case(&shift.newer, &shift.told, table), shift.older);
    }
    (held, due)
}

/// The same of tables without blanks: how many marks there are more.
fn grown(older: &Tables, newer: &Tables) -> usize {
    let shift = Shift::new(&mut Random::new(1), older.clone(), newer.clone());
    let (held, due) = agree(&shift);
    marked(newer, &due).len() - marked(newer, &held).len()
}

/// Of random tables with one inclusion more, or several, or none.
#[test]
fn a_table_that_was_right_becomes_the_one_made_afresh() {
    let seed = seed("update, right before");
    let mut tally = Tally::new("update, right before");
    for size in [Size::Small, Size::Medium, Size::Large] {
        for k in 0..cases(size) {
            let shift = Shift::random(&mut Random::for_case(seed, k), size);
            let more = (shift.newer.inclusions.len() - shift.older.inclusions.len()) / 2;
            let (held, due) = agree(&shift);
            tally.case();
            tally.note("no inclusion more", more == 0);
            tally.note("one more", more == 1);
            tally.note("several more", more > 1);
            tally.note("marks added", held != due);
            tally.note("something chosen", !shift.told.is_empty());
            tally.note("other positions", shift.before != shift.after);
        }
    }
    tally.finish(&[
        ("no inclusion more", 5..=60),
        ("one more", 15..=70),
        ("several more", 10..=60),
        ("marks added", 15..=80),
        ("something chosen", 15..=90),
        ("other positions", 2..=50),
    ]);
}

/// Each inclusion of the families left out in its turn, without and with role pairs.
#[test]
fn each_inclusion_of_a_family() {
    for (family, n) in FAMILIES.into_iter().flat_map(|family| [(family, 48), (family, 192)]) {
        for newer in [family.tables(n), family.tables_with_role_pairs(n)] {
            for place in 0..n / 2 {
                let mut older = newer.clone();
                older.inclusions.drain(2 * place..2 * place + 2);
                grown(&older, &newer);
            }
        }
    }
}

/// A line of names with an inclusion from each to the next, in any direction and order, that lacks
/// one: what is before the gap is then below what is behind it.
#[test]
fn a_gap_in_a_long_line() {
    let names: Vec<[u16; 3]> = (0..64).map(|name| [1, name, 0]).collect();
    let rising: Vec<[u16; 2]> = (0..63).map(|id| [id, id + 1]).collect();
    let falling: Vec<[u16; 2]> = (0..63).map(|id| [id + 1, id]).collect();
    let mut shuffled = falling.clone();
    Random::new(3).shuffle(&mut shuffled);
    for line in [&rising, &falling, &shuffled] {
        let newer = Tables::new(&names, line, &[], 0);
        for gap in 0..63 {
            let mut pairs = line.clone();
            pairs.remove(gap);
            let older = Tables::new(&names, &pairs, &[], 0);
            let before = usize::from(line[gap][0].min(line[gap][1])) + 1;
            assert_eq!(grown(&older, &newer), before * (64 - before), "{:?}", line[gap]);
        }
    }
}

/// One inclusion at the bottom of a tower is felt in each storey, up to the last.
#[test]
fn towers() {
    let older = nested::tower(190);
    for pair in [[1, 2], [2, 1]] {
        let newer = Tables { inclusions: pair.to_vec(), ..older.clone() };
        assert_eq!(grown(&older, &newer), 191 * 190 / 2, "{:?}", pair);
    }
    // two towers of "and" and of "some" over two names, of which one becomes below the other
    for (kind, more) in [(2, 96), (3, 96 * 96)] {
        let mut rows = vec![[1, 5, 0], [1, 6, 0]];
        let row = |inner: u16| if kind == 2 { [2, 9, inner] } else { [3, inner, inner] };
        rows.extend((0..190).map(row));
        let older = Tables::new(&rows, &[], &[], 0);
        let newer = Tables::new(&rows, &[[0, 1]], &[], 0);
        assert_eq!(grown(&older, &newer), more, "kind {}", kind);
    }
}

/// 192 entries, 96 inclusions, 8 blanks, 64 parts and 32 role pairs: right before, damaged, empty,
/// full, and noise everywhere.
#[test]
fn all_limits_at_once() {
    let seed = seed("update, limits");
    for k in 0..(cases(Size::Large) / 12).max(1) {
        let mut random = Random::for_case(seed, k);
        let mut newer = generate::full(&mut random);
        generate::add_role_pairs(&mut random, MAX_ROLE_PAIRS, &mut newer);
        let older = older(&mut random, &newer);
        let shift = Shift::new(&mut random, older, newer);
        let (held, due) = agree(&shift);
        let tables = &shift.newer;
        assert_eq!(tables.inclusion_pairs().len(), MAX_INCLUSIONS);
        assert_eq!(atoms::list(tables).len(), 64);
        let mut damaged = layout::read(&due, MAX_CONCEPTS);
        damage::marks(&mut random, &mut damaged);
        let damaged = held_table(&mut random, &damaged, due.len() + 30);
        let noise = (0..due.len() + 1).map(|_| random.number() as u8).collect();
        for table in [held, damaged, empty(tables), vec![0xff; due.len()], noise] {
            assert_eq!(ask(tables, &shift.told, &table), Answer::done(0));
        }
    }
}

/// Random tables that are accepted, a choice of the parts that they had before a shift, and a table
/// that is held.
fn shifts(name: &str, share: usize) -> Vec<(Shift, Vec<u8>, Random)> {
    let seed = seed(name);
    let mut all = Vec::new();
    for size in [Size::Small, Size::Medium, Size::Large] {
        for k in 0..(cases(size) / share).max(1) {
            let mut random = Random::for_case(seed, k);
            let shift = Shift::random(&mut random, size);
            let chosen = atoms::chosen(&shift.newer, &shift.after);
            let marks = held_marks(&mut random, &shift.newer, &chosen);
            let held = held_table(&mut random, &marks, marks.len() * ROW_BYTES);
            all.push((shift, held, random));
        }
    }
    all
}

/// What has lost marks of the table made afresh, all of them too, gets them back, and no others.
#[test]
fn lost_marks_come_back() {
    for (shift, _, mut random) in shifts("update, lost marks", 8) {
        let due = fresh(&shift.newer, &shift.after);
        let lost = |share: usize, random: &mut Random| -> Vec<u8> {
            let mut marks = layout::read(&due, shift.newer.concept_count());
            marks.iter_mut().flatten().for_each(|mark| *mark &= !random.percent(share));
            let mut held = due.clone();
            layout::write(&mut held, &marks);
            held
        };
        for share in [3, 50, 97, 100] {
            let held = lost(share, &mut random);
            let same = updated(&shift.newer, &shift.told, &held) == due;
            assert!(same, "for\n{}", case(&shift.newer, &shift.told, &held));
        }
    }
}

/// A second call changes nothing, whatever the table was.
#[test]
fn twice_is_once() {
    let mut tally = Tally::new("update, twice");
    for (shift, held, _) in shifts("update, twice", 4) {
        let once = updated(&shift.newer, &shift.told, &held);
        let twice = updated(&shift.newer, &shift.told, &once);
        assert!(twice == once, "for\n{}", case(&shift.newer, &shift.told, &held));
        tally.case();
        tally.note("marks added", once != held);
    }
    tally.finish(&[("marks added", 40..=95)]);
}

/// With more marks held there are no fewer afterwards.
#[test]
fn more_marks_bring_more() {
    let mut tally = Tally::new("update, more marks");
    for (shift, held, mut random) in shifts("update, more marks", 4) {
        let count = shift.newer.concept_count();
        let mut marks = layout::read(&held, count);
        let share = *random.pick(&[1, 5, 30]);
        marks.iter_mut().flatten().for_each(|mark| *mark |= random.percent(share));
        let mut more = held.clone();
        layout::write(&mut more, &marks);
        let fewer = updated(&shift.newer, &shift.told, &held);
        let after = updated(&shift.newer, &shift.told, &more);
        let within = fewer.iter().zip(&after).all(|(one, other)| one & !other == 0);
        assert!(within, "{:?} for\n{}", more, case(&shift.newer, &shift.told, &held));
        tally.case();
        tally.note("other marks", fewer != after);
    }
    tally.finish(&[("other marks", 20..=90)]);
}

/// Closed with the older inclusions first, or at once with all, in any order and some twice: the
/// same bytes, of damaged tables too.
#[test]
fn one_by_one_or_at_once() {
    for (shift, held, mut random) in shifts("update, one by one", 4) {
        let due = updated(&shift.newer, &shift.told, &held);
        let first = updated(&shift.older, &shift.told, &held);
        let case = case(&shift.newer, &shift.told, &held);
        assert!(updated(&shift.newer, &shift.told, &first) == due, "for\n{}", case);
        let mut pairs: Vec<&[u16]> = shift.newer.inclusions.chunks_exact(2).collect();
        if let Some(&again) = pairs.first().filter(|_| pairs.len() < MAX_INCLUSIONS) {
            pairs.push(again);
        }
        random.shuffle(&mut pairs);
        let mixed = Tables { inclusions: pairs.concat(), ..shift.newer.clone() };
        assert!(updated(&mixed, &shift.told, &held) == due, "for\n{}", case);
    }
}

/// Every blank chooses every part: 512 pairs, all of them twice.
#[test]
fn all_that_can_be_told() {
    let tables = generate::full(&mut Random::new(11));
    let parts = atoms::list(&tables);
    assert_eq!(parts.len(), 64);
    let mut told = Vec::new();
    for &id in &parts {
        told.extend((0..8).flat_map(|blank| [blank, id as u16]));
    }
    let told = told.repeat(2);
    assert_eq!(ask(&tables, &told, &empty(&tables)), Answer::done(0));
    assert_eq!(updated(&tables, &told, &empty(&tables)), fresh(&tables, &[u64::MAX; 8]));
}

/// A call leaves nothing behind: one table, another under another choice, a refused call, and the
/// first again.
#[test]
fn calls_do_not_touch_each_other() {
    let mut moved = 0;
    for (shift, held, mut random) in shifts("update, in a row", 16) {
        let tables = &shift.newer;
        let choice = generate::assignment(&mut random, tables);
        let other = told(&mut random, &atoms::chosen(tables, &choice));
        let one = updated(tables, &shift.told, &held);
        let two = updated(tables, &other, &empty(tables));
        let mut kept = held.clone();
        let refused = capi::update_table(tables.lend(), &[0], &mut kept);
        assert_eq!((refused, &kept), (Answer::refused(9, 0), &held));
        assert!(updated(tables, &shift.told, &held) == one, "for\n{}", tables);
        moved += usize::from(one != two);
    }
    assert!(moved > 0, "no choice changed anything");
}
