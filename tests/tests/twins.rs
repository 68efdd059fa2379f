//! What A.2 (02) promises of the two lists: with copies each an atom of its own, or with the lowest
//! twins only, there is a filling in both cases or in none, and choices of the same concepts give
//! the same answers. The reference works over the list with copies, the library over the other.

use std::collections::BTreeSet;

use hermitcasket_tests::capi::{self, Answer};
use hermitcasket_tests::compare;
use hermitcasket_tests::generate::{self, paste_copies};
use hermitcasket_tests::hard;
use hermitcasket_tests::limits::*;
use hermitcasket_tests::planted;
use hermitcasket_tests::random::{cases, seed, Random, Size};
use hermitcasket_tests::reference::atoms::{self, Twins};
use hermitcasket_tests::reference::model::Canonical;
use hermitcasket_tests::reference::{self, matching, Refusal};
use hermitcasket_tests::tables::{Case, Tables};
use hermitcasket_tests::tally::Tally;

const NONE: Refusal = Refusal { number: 10, place: 0 };

/// Small tables with many copies, few enough choices over the longer list to try them all, and
/// questions that mostly need a choice.
fn tiny(random: &mut Random) -> Tables {
    loop {
        let mut tables = generate::valid(random, Size::Small);
        tables.questions.truncate(2 * random.between(1, 4));
        let most = random.between(1, 6);
        paste_copies(random, &mut tables, most);
        let longer = atoms::list_with_copies(&tables).len();
        let choices = usize::from(tables.variables) * longer;
        if choices > 12 || longer == atoms::list(&tables).len() || tables.questions.is_empty() {
            continue;
        }
        let nothing = vec![0; usize::from(tables.variables)];
        if random.percent(15) || !matching::solves(&tables, &nothing) {
            return tables;
        }
    }
}

/// The library's answer over the lowest twins, or none.
fn found(tables: &Tables) -> Option<Vec<u64>> {
    let mut out = vec![0; usize::from(tables.variables)];
    let answer = capi::find(tables.lend(), &mut out);
    let none = answer == Answer::refused(10, 0);
    assert!(none || answer == Answer::done(0), "{:?} for\n{}", answer, tables);
    (!none).then_some(out)
}

/// The ids that the library says are chosen for each variable.
fn chosen(tables: &Tables, assignment: &[u64]) -> Vec<Vec<usize>> {
    let of_variable = |variable: u16| {
        let mut ids = [0; ATOM_ROOM];
        let answer = capi::chosen(tables.lend(), assignment, variable, &mut ids);
        assert_eq!(answer.number, 0, "{:?} for\n{}", answer, tables);
        ids[..answer.value as usize].iter().map(|&id| usize::from(id)).collect()
    };
    (0..tables.variables).map(of_variable).collect()
}

/// The choice of the same concepts over the lowest twins: each id's lowest twin is taken.
fn over_the_lowest(tables: &Tables, chosen: &[Vec<usize>]) -> Vec<u64> {
    let mut twins = Twins::new(tables);
    let list = atoms::list(tables);
    let mut position = |id: usize| {
        let lowest = twins.lowest(id);
        list.iter().position(|&atom| atom == lowest).expect("the lowest twin is an atom")
    };
    let mut choice = |ids: &Vec<usize>| ids.iter().fold(0, |bits, &id| bits | 1 << position(id));
    chosen.iter().map(&mut choice).collect()
}

/// For each id any of its twins on the list with copies: the lowest itself may not stand there.
fn over_the_copies(random: &mut Random, tables: &Tables, chosen: &[Vec<usize>]) -> Vec<Vec<usize>> {
    let mut twins = Twins::new(tables);
    let list = atoms::list_with_copies(tables);
    let mut copy = |&id: &usize| {
        let alike: Vec<usize> =
            list.iter().copied().filter(|&other| twins.alike(id, other)).collect();
        *random.pick(&alike)
    };
    chosen.iter().map(|ids| ids.iter().map(&mut copy).collect()).collect()
}

/// Every choice over the list with copies tried in order, and the library over the lowest twins:
/// both find something or neither does, and each one's finding solves over the other's list.
#[test]
fn a_filling_before_exactly_when_after() {
    let seed = seed("twins, brute force");
    let mut tally = Tally::new("twins, brute force");
    for k in 0..cases(Size::Small) / 12 {
        let mut random = Random::for_case(seed, k);
        let tables = tiny(&mut random);
        let with_copies = atoms::list_with_copies(&tables);
        let before = matching::brute_force_over(&tables, &with_copies);
        let after = found(&tables);
        assert_eq!(after, matching::brute_force(&tables), "for\n{}", tables);
        assert_eq!(before.is_some(), after.is_some(), "{:?}, {:?} for\n{}", before, after, tables);
        tally.case();
        tally.note("filled", after.is_some());
        tally.note("none", after.is_none());
        if let (Some(before), Some(after)) = (before, after) {
            let ids = atoms::chosen_from(&with_copies, &before);
            let moved = over_the_lowest(&tables, &ids);
            assert!(matching::solves(&tables, &moved), "{:?} for\n{}", ids, tables);
            let ids = chosen(&tables, &after);
            let moved = over_the_copies(&mut random, &tables, &ids);
            assert!(matching::solves_choosing(&tables, &moved), "{:?} for\n{}", ids, tables);
            tally.note("something chosen", after.iter().any(|&choice| choice != 0));
        }
    }
    tally.finish(&[("filled", 20..=80), ("none", 20..=80), ("something chosen", 10..=80)]);
}

/// Any choice over the list with copies, and that of the lowest twins in its place: the library's
/// subsumption table under the latter is the relation under the former, pair by pair.
#[test]
fn choices_of_the_same_concepts_give_the_same_table() {
    let seed = seed("twins, tables");
    let mut tally = Tally::new("twins, tables");
    for (size, share) in [(Size::Small, 6), (Size::Medium, 6), (Size::Large, 10)] {
        for k in 0..(cases(size) / share).max(1) {
            let mut random = Random::for_case(seed, k);
            let mut tables = generate::valid(&mut random, size);
            let most = random.between(1, 40);
            paste_copies(&mut random, &mut tables, most);
            let ids = random_choice(&mut random, &tables);
            let moved = over_the_lowest(&tables, &ids);
            let members = Canonical::build(&tables, &ids).members;
            let (rows, marks) = (reference::rows(&members), reference::marks(&members));
            let mut bytes = vec![0; rows.len()];
            let answer = capi::subsumption_table(tables.lend(), &moved, &mut bytes);
            assert_eq!(answer, Answer::done(marks), "for\n{}", tables);
            assert!(bytes == rows, "{:?} and {:?} for\n{}", ids, moved, tables);
            // the concepts chosen are the same: each has a twin on the other side
            let lowest = chosen(&tables, &moved);
            let mut twins = Twins::new(&tables);
            for (copies, lowest) in ids.iter().zip(&lowest) {
                let wanted: BTreeSet<usize> = copies.iter().map(|&id| twins.lowest(id)).collect();
                assert!(lowest.iter().eq(&wanted), "{:?} for\n{}", ids, tables);
            }
            tally.case();
            tally.note("a copy chosen", ids != lowest);
        }
    }
    tally.finish(&[("a copy chosen", 20..=90)]);
}

/// Ids of the list with copies for each variable, rising.
fn random_choice(random: &mut Random, tables: &Tables) -> Vec<Vec<usize>> {
    let list = atoms::list_with_copies(tables);
    let share = *random.pick(&[5, 30, 70]);
    let mut choice = |_| list.iter().copied().filter(|_| random.percent(share)).collect();
    (0..tables.variables).map(&mut choice).collect()
}

/// Copies of entries pasted in, and named in the place of the originals: the answer is bit for bit
/// what it was without them, whatever the list with copies has grown to.
fn agree_with_copies(random: &mut Random, tables: &Tables, most: usize, tally: &mut Tally) {
    let before = matching::first_solution(tables);
    let mut pasted = tables.clone();
    paste_copies(random, &mut pasted, most);
    compare::find_expecting(&Case::new(pasted.clone(), &[]), before.clone().ok_or(NONE));
    let with_copies = atoms::list_with_copies(&pasted);
    let more = with_copies.len() > atoms::list(&pasted).len();
    let over = with_copies.len() > MAX_ATOMS;
    tally.case();
    tally.note("filled", before.is_some());
    tally.note("none", before.is_none());
    tally.note("longer with copies", more);
    tally.note("over 64 with copies", over);
    // the promise of 02 is for lists of up to 64
    if !over {
        let over_copies = matching::first_solution_over(&pasted, &with_copies);
        assert_eq!(over_copies.is_some(), before.is_some(), "for\n{}", pasted);
    }
}

#[test]
fn pasted_copies_change_no_answer() {
    let seed = seed("twins, pasted");
    let mut tally = Tally::new("twins, pasted");
    for (size, share) in [(Size::Small, 10), (Size::Medium, 10), (Size::Large, 10)] {
        for k in 0..(cases(size) / share).max(1) {
            let mut random = Random::for_case(seed, k);
            let tables = generate::valid(&mut random, size);
            let most = random.between(1, 60);
            agree_with_copies(&mut random, &tables, most, &mut tally);
        }
    }
    tally.finish(&[("filled", 20..=80), ("none", 20..=80), ("longer with copies", 20..=90)]);
}

/// Problems that need a search, and the puzzles.
#[test]
fn pasted_copies_change_no_answer_of_a_search() {
    let seed = seed("twins, searches");
    let mut tally = Tally::new("twins, searches");
    for shape in [planted::TINY[0], planted::TINY[1], planted::MEDIUM, planted::TOWERS[1]] {
        for k in 0..(cases(Size::Large) / 8).max(1) {
            let mut random = Random::for_case(seed, k);
            let tables = planted::problem(&mut random, shape);
            let most = random.between(5, 60);
            agree_with_copies(&mut random, &tables, most, &mut tally);
        }
    }
    for (k, problem) in hard::puzzles(seed).iter().enumerate() {
        agree_with_copies(&mut Random::for_case(seed, k), &problem.tables, 60, &mut tally);
    }
    tally.finish(&[
        ("filled", 20..=80),
        ("none", 20..=80),
        ("longer with copies", 50..=100),
        ("over 64 with copies", 0..=50),
    ]);
}

/// A choice has a bit for each lowest twin and none for a copy: refusal 9.
#[test]
fn a_copy_has_no_position() {
    let rows = [[1, 5, 0], [1, 5, 0], [1, 6, 0], [1, 5, 0], [4, 0, 0]];
    let tables = Tables::new(&rows, &[[3, 2], [1, 1]], &[], 1);
    for (choice, wanted) in [(1, 0), (2, 0), (3, 0), (4, 9), (5, 9), (8, 9)] {
        let mut case = Case::new(tables.clone(), &[choice]);
        case.pair = (4, 1);
        let refused = Answer::refused(9, 0);
        // 13 pairs of names; the blank is as 0, 1 and 3 are, or as 2 is
        let marks = if choice == 2 { 19 } else { 21 };
        let table = if wanted == 0 { Answer::done(marks) } else { refused };
        assert_eq!(compare::table(&case), table, "choice {}", choice);
        // the lowest twin chosen stands for its copies
        let yes = Answer::done(choice & 1);
        assert_eq!(compare::decide(&case), if wanted == 0 { yes } else { refused });
        assert_eq!(compare::chosen(&case).number, wanted, "choice {}", choice);
    }
}
