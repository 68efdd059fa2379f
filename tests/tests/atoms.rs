//! hc_atoms: which ids are atoms, their order, the buffer.

use hermitcasket_tests::capi::{self, Answer};
use hermitcasket_tests::compare;
use hermitcasket_tests::faults::{every_set, table_faults, Fault};
use hermitcasket_tests::generate;
use hermitcasket_tests::limits::{ATOM_ROOM, MAX_ATOMS};
use hermitcasket_tests::random::{cases, full_run, seed, Random, Size};
use hermitcasket_tests::reference::atoms;
use hermitcasket_tests::tables::{Case, Tables};
use hermitcasket_tests::tally::Tally;

/// The list written here by hand, from the library and from the reference.
fn expect(atoms: &[u16], tables: Tables) {
    let case = Case::new(tables, &[]);
    assert_eq!(compare::atoms(&case), Answer::done(atoms.len() as u64), "for\n{}", case);
    let mut out = [7; ATOM_ROOM];
    capi::atoms(case.tables.lend(), &mut out);
    assert_eq!(&out[..atoms.len()], atoms, "for\n{}", case);
    assert!(out[atoms.len()..].iter().all(|&number| number == 7));
}

/// 0 top, 1 name, 2 exists 1, 3 "1 and 2", 4 a variable, 5 "1 and 4", 6 a twin of 1, 7 exists 3.
fn rows() -> [[u16; 3]; 8] {
    [[0, 0, 0], [1, 5, 0], [2, 1, 1], [3, 1, 2], [4, 0, 0], [3, 1, 4], [1, 5, 0], [2, 1, 3]]
}

#[test]
fn inclusions_give_both_sides_at_any_depth() {
    expect(&[], Tables::new(&rows(), &[], &[], 1));
    expect(&[1], Tables::new(&rows(), &[[1, 0]], &[], 1));
    expect(&[1], Tables::new(&rows(), &[[0, 1]], &[], 1));
    expect(&[1, 2], Tables::new(&rows(), &[[2, 0]], &[], 1));
    expect(&[1, 2], Tables::new(&rows(), &[[0, 3]], &[], 1));
    expect(&[1, 2, 7], Tables::new(&rows(), &[[7, 0]], &[], 1));
    expect(&[], Tables::new(&rows(), &[[0, 0]], &[], 1));
}

/// Only right sides without variables count, whatever the left holds.
#[test]
fn questions_give_right_sides_without_variables() {
    expect(&[], Tables::new(&rows(), &[], &[[7, 0]], 1));
    expect(&[], Tables::new(&rows(), &[], &[[7, 4]], 1));
    expect(&[], Tables::new(&rows(), &[], &[[7, 5]], 1));
    expect(&[1, 2, 7], Tables::new(&rows(), &[], &[[0, 7]], 1));
    expect(&[1, 2, 7], Tables::new(&rows(), &[], &[[5, 7]], 1));
    expect(&[1, 2], Tables::new(&rows(), &[], &[[1, 4], [4, 3], [6, 5]], 1));
}

/// Wherever the copies are named, and whether or not the lowest stands there too.
#[test]
fn only_the_lowest_twin_is_an_atom() {
    expect(&[1], Tables::new(&rows(), &[[6, 1]], &[], 1));
    expect(&[1], Tables::new(&rows(), &[[1, 6]], &[], 1));
    expect(&[1], Tables::new(&rows(), &[[6, 6]], &[], 1));
    expect(&[1], Tables::new(&rows(), &[], &[[0, 6]], 1));
    expect(&[1, 2, 7], Tables::new(&rows(), &[[7, 0]], &[[4, 6], [0, 6]], 1));
}

/// 0 and 1 one name, 2 and 3 "some" of each, 4 and 5 "and" of these, 6 and 7 "some" of each,
/// 8 "some" of 5 again: each of a pair is built of the twins of the other's inner ids.
#[test]
fn twins_of_twins() {
    let rows = [
        [1, 5, 0],
        [1, 5, 0],
        [2, 1, 0],
        [2, 1, 1],
        [3, 0, 3],
        [3, 1, 2],
        [2, 9, 4],
        [2, 9, 5],
        [2, 9, 5],
    ];
    for ids in [[6, 6], [7, 7], [8, 8], [7, 8], [8, 6]] {
        expect(&[0, 2, 6], Tables::new(&rows, &[ids], &[], 0));
        expect(&[0, 2, 6], Tables::new(&rows, &[], &[ids], 0));
    }
    expect(&[0, 2], Tables::new(&rows, &[[3, 5]], &[], 0));
    // each tower of 95 is the other's twin, storey by storey
    let mut towers = vec![[1, 5, 0], [1, 5, 0]];
    towers.extend((0..94).flat_map(|k| [[2, 0, 2 * k], [2, 0, 2 * k + 1]]));
    let lowest: Vec<u16> = (0..64).map(|k| 2 * k).collect();
    expect(&lowest, Tables::new(&towers, &[[127, 0]], &[], 0));
    expect(&lowest, Tables::new(&towers, &[[126, 127]], &[], 0));
}

/// Towers of "and" hold 2^94 names, and are told apart, or not, all the same.
#[test]
fn twins_over_towers_of_conjunctions() {
    for (name, atoms) in [(5, vec![0, 190]), (6, vec![0, 1, 190, 191])] {
        let mut rows = vec![[1, 5, 0], [1, name, 0]];
        rows.extend((0..94).flat_map(|k| [[3, 2 * k, 2 * k], [3, 2 * k + 1, 2 * k + 1]]));
        rows.extend([[2, 0, 188], [2, 0, 189]]);
        expect(&atoms, Tables::new(&rows, &[[190, 191]], &[], 0));
    }
}

/// "And" keeps its order and its pairing, though each of two is below the other.
#[test]
fn conjunctions_in_another_order_are_no_twins() {
    let rows = [
        [1, 5, 0],
        [1, 6, 0],
        [3, 0, 1],
        [3, 1, 0],
        [2, 0, 2],
        [2, 0, 3],
        [3, 0, 1],
        [2, 0, 6],
        [3, 2, 0],
        [3, 0, 3],
        [2, 0, 8],
        [2, 0, 9],
    ];
    expect(&[0, 1, 4, 5], Tables::new(&rows, &[[4, 5]], &[], 0));
    expect(&[0, 1, 4, 5], Tables::new(&rows, &[[7, 5]], &[], 0));
    expect(&[0, 1, 10, 11], Tables::new(&rows, &[[10, 11]], &[], 0));
}

/// Another kind, name, role or inner concept, also where the numbers of two rows are the same.
#[test]
fn what_is_no_twin() {
    let rows = [
        [1, 0, 0],
        [2, 0, 0],
        [2, 1, 0],
        [2, 0, 1],
        [1, 1, 0],
        [2, 0, 4],
        [0, 0, 0],
        [2, 0, 6],
        [1, 256, 0],
        [2, 0, 8],
    ];
    let inclusions: Vec<[u16; 2]> = (0..10).map(|id| [id, id]).collect();
    let all: Vec<u16> = (0..10).filter(|&id| id != 6).collect();
    expect(&all, Tables::new(&rows, &inclusions, &[], 0));
    // tops are twins, and so are existentials over them; alone they are no atoms
    let tops = [[0, 0, 0], [0, 0, 0], [2, 0, 0], [2, 0, 1]];
    expect(&[2], Tables::new(&tops, &[[3, 1]], &[], 0));
}

/// The lowest twin is the atom where only a copy stands as an atom must: it stands itself on a
/// question's left, under a variable's side, inside such a concept, or nowhere at all.
#[test]
fn the_lowest_twin_may_stand_anywhere() {
    // 0 name, 1 exists 0, 2 and 3 the same again, 4 a variable, 5 "1 and 4", 6 exists 1
    let rows = [[1, 5, 0], [2, 1, 0], [1, 5, 0], [2, 1, 2], [4, 0, 0], [3, 1, 4], [2, 7, 1]];
    let ask = |questions: &[[u16; 2]]| Tables::new(&rows, &[[3, 3]], questions, 1);
    for questions in [vec![], vec![[0, 4]], vec![[1, 4]], vec![[6, 4]], vec![[0, 5], [5, 2]]] {
        expect(&[0, 1], ask(&questions));
    }
    // the same with no inclusion, and the copies on a right side
    expect(&[0, 1], Tables::new(&rows, &[], &[[1, 3], [0, 5]], 1));
    expect(&[0], Tables::new(&rows, &[], &[[1, 2]], 1));
    // and where nothing is asked of a copy, nothing is an atom
    expect(&[], Tables::new(&rows, &[], &[[1, 4], [3, 5]], 1));
}

/// Names and `count - names` copies of the first ones, each in an inclusion of its own.
fn with_copies(names: u16, count: u16) -> Tables {
    let rows: Vec<[u16; 3]> = (0..count).map(|id| [1, id % names, 0]).collect();
    // an inclusion for each two, since there is room for 96
    let inclusions: Vec<[u16; 2]> =
        (0..count).step_by(2).map(|id| [id, (id + 1).min(count - 1)]).collect();
    Tables::new(&rows, &inclusions, &[], 0)
}

/// 65 ids that were atoms each, and 64 of them left, are accepted; 65 left are not.
#[test]
fn copies_count_once_at_the_limit() {
    let all: Vec<u16> = (0..64).collect();
    for count in [64, 65, 66, 128, 191, 192] {
        let tables = with_copies(64, count);
        assert_eq!(atoms::list_with_copies(&tables).len(), usize::from(count));
        expect(&all, tables.clone());
        compare::all(&Case::new(tables.clone(), &[]));
        assert_eq!(compare::find(&Case::new(tables, &[])), Answer::done(0), "{}", count);
    }
    for count in [65, 66, 130, 192] {
        let case = Case::new(with_copies(65, count), &[]);
        assert_eq!(compare::atoms(&case), Answer::refused(7, 64), "{}", count);
        assert_eq!(compare::find(&case), Answer::refused(7, 64), "{}", count);
        compare::all(&case);
    }
}

/// The buffer wants 64 numbers however few are written.
#[test]
fn short_buffers() {
    for (room, wanted) in [(0, 8), (1, 8), (63, 8), (64, 0), (65, 0), (200, 0)] {
        let mut case = Case::new(Tables::new(&rows(), &[[7, 0]], &[], 1), &[]);
        case.atom_room = room;
        let answer = compare::atoms(&case);
        assert_eq!(answer.number, wanted, "{} numbers", room);
        assert_eq!(answer.place, if wanted == 8 { 64 } else { 0 });
        assert_eq!(answer.value, if wanted == 8 { 0 } else { 3 });
    }
}

/// Every set of faults at once: 1 to 6, 16, 7, then 8. The assignment and the pair are not asked for.
#[test]
fn every_set_of_faults() {
    let mut faults = table_faults(false);
    faults.push(Fault::ShortBuffer);
    for (case, chosen) in every_set(&faults) {
        let wanted = match chosen.first() {
            None => Answer::done(60),
            Some(Fault::ShortBuffer) => Answer::refused(8, 64),
            Some(fault) => Answer::refused(fault.refusal().0, fault.refusal().1),
        };
        assert_eq!(compare::atoms(&case), wanted, "{:?} in\n{}", chosen, case);
    }
}

/// Copies pasted behind everything, and named in the place of the originals, leave the list as it
/// was; the list with copies is mostly another.
#[test]
fn pasted_copies_leave_the_list() {
    let seed = seed("atoms, copies");
    let mut tally = Tally::new("atoms, copies");
    for size in [Size::Small, Size::Medium, Size::Large] {
        for k in 0..(cases(size) / 4).max(1) {
            let mut random = Random::for_case(seed, k);
            let mut tables = generate::valid(&mut random, size);
            let before = atoms::list(&tables);
            let most = random.between(1, 60);
            generate::paste_copies(&mut random, &mut tables, most);
            let ids: Vec<u16> = before.iter().map(|&id| id as u16).collect();
            expect(&ids, tables.clone());
            let with_copies = atoms::list_with_copies(&tables);
            tally.case();
            tally.note("longer with copies", with_copies.len() > before.len());
            tally.note("over 64 with copies", with_copies.len() > MAX_ATOMS);
            let elsewhere = before.iter().any(|id| !with_copies.contains(id));
            tally.note("a lowest twin stands elsewhere", elsewhere);
        }
    }
    tally.finish(&[("longer with copies", 20..=90), ("a lowest twin stands elsewhere", 20..=90)]);
}

#[test]
fn random_tables_agree() {
    let seed = seed("atoms");
    let mut seen = [0; 17];
    let mut most = 0;
    for size in [Size::Small, Size::Medium, Size::Large] {
        for k in 0..cases(size) {
            let case = generate::case(&mut Random::for_case(seed, k), size);
            let answer = compare::atoms(&case);
            seen[usize::from(answer.number)] += 1;
            most = most.max(answer.value);
        }
    }
    let all_seen = (0..9).chain([16]).all(|number| seen[number] > 0) && most == 64;
    assert!(all_seen || !full_run(), "answers 0 to 8 and 16: {:?}, most {}", seen, most);
}
