//! hc_chosen: the ids chosen for one variable, their number, the buffer, the order of checks.

use hermitcasket_tests::capi::{self, Answer};
use hermitcasket_tests::compare;
use hermitcasket_tests::faults::{every_set, Fault, FAULTS};
use hermitcasket_tests::generate;
use hermitcasket_tests::limits::ATOM_ROOM;
use hermitcasket_tests::random::{cases, full_run, seed, Random, Size};
use hermitcasket_tests::tables::{Case, Tables};

/// The list written here by hand, from the library and from the reference.
fn expect(ids: &[u16], tables: &Tables, assignment: &[u64], variable: u16) {
    let mut case = Case::new(tables.clone(), assignment);
    case.variable = variable;
    assert_eq!(compare::chosen(&case), Answer::done(ids.len() as u64), "for\n{}", case);
    let mut out = [7; ATOM_ROOM];
    capi::chosen(case.tables.lend(), assignment, variable, &mut out);
    assert_eq!(&out[..ids.len()], ids, "for\n{}", case);
    assert!(out[ids.len()..].iter().all(|&number| number == 7));
}

/// Atoms 0, 2 and 3; the ids are asked for, not the positions.
#[test]
fn ids_of_the_chosen_positions() {
    let rows = [[1, 5, 0], [0, 0, 0], [1, 7, 0], [2, 1, 0], [4, 1, 0]];
    let tables = Tables::new(&rows, &[[2, 3]], &[], 2);
    let lists: [&[u16]; 8] = [&[], &[0], &[2], &[0, 2], &[3], &[0, 3], &[2, 3], &[0, 2, 3]];
    for (choice, ids) in lists.iter().enumerate() {
        expect(ids, &tables, &[choice as u64, 0], 0);
        expect(ids, &tables, &[7, choice as u64], 1);
        expect(&[], &tables, &[0, choice as u64], 0);
    }
}

/// The lowest twins 0 and 1 are named, though only the copies 2 and 3 stand in the inclusion.
#[test]
fn the_lowest_twin_is_named() {
    let rows = [[1, 5, 0], [2, 1, 0], [1, 5, 0], [2, 1, 2], [4, 0, 0]];
    let tables = Tables::new(&rows, &[[2, 3]], &[], 1);
    let lists: [&[u16]; 4] = [&[], &[0], &[1], &[0, 1]];
    for (choice, ids) in lists.iter().enumerate() {
        expect(ids, &tables, &[choice as u64], 0);
    }
}

/// 64 atoms and every bit of the choice, alone and with all others.
#[test]
fn every_bit() {
    let rows: Vec<[u16; 3]> = (0..64).map(|name| [1, name, 0]).collect();
    let inclusions: Vec<[u16; 2]> = (0..64).map(|id| [id, id]).collect();
    let tables = Tables::new(&rows, &inclusions, &[], 1);
    for bit in 0..64 {
        expect(&[bit], &tables, &[1 << bit], 0);
        let others: Vec<u16> = (0..64).filter(|&id| id != bit).collect();
        expect(&others, &tables, &[!(1 << bit)], 0);
        let below: Vec<u16> = (0..bit).collect();
        expect(&below, &tables, &[(1 << bit) - 1], 0);
    }
    let all: Vec<u16> = (0..64).collect();
    expect(&all, &tables, &[u64::MAX], 0);
}

/// A variable's number must be below the count: refusal 2 at place 0.
#[test]
fn variable_numbers() {
    for variables in 0..9 {
        let assignment = vec![0; usize::from(variables)];
        for variable in [0, 1, 7, 8, 9, 255, 256, 65535] {
            let mut case = Case::new(Tables::new(&[], &[], &[], variables), &assignment);
            case.variable = variable;
            let known = variable < variables;
            let wanted = if known { Answer::done(0) } else { Answer::refused(2, 0) };
            assert_eq!(compare::chosen(&case), wanted, "{} of {}", variable, variables);
        }
    }
}

/// The buffer wants 64 numbers however few are written, and is asked for after the assignment.
#[test]
fn short_buffers() {
    let tables = Tables::new(&[[1, 5, 0], [1, 6, 0]], &[[0, 1]], &[], 1);
    for room in [0, 1, 2, 63] {
        let mut case = Case::new(tables.clone(), &[3]);
        case.chosen_room = room;
        assert_eq!(compare::chosen(&case), Answer::refused(8, 64), "{} numbers", room);
        case.assignment = vec![4];
        assert_eq!(compare::chosen(&case), Answer::refused(9, 0), "{} numbers", room);
        case.assignment = vec![];
        assert_eq!(compare::chosen(&case), Answer::refused(9, 1), "{} numbers", room);
    }
    for room in [64, 65, 1000] {
        let mut case = Case::new(tables.clone(), &[3]);
        case.chosen_room = room;
        assert_eq!(compare::chosen(&case), Answer::done(2), "{} numbers", room);
    }
}

/// Every set of faults at once: 1, 2 with the variable at place 0, 3 to 6, 16, 7, 9, 8.
#[test]
fn every_set_of_faults() {
    let mut faults = FAULTS.to_vec();
    faults.retain(|&fault| fault != Fault::LonePair);
    for (mut case, chosen) in every_set(&faults) {
        let wanted = match chosen.first() {
            None => Answer::done(0),
            Some(Fault::ShortBuffer) => Answer::refused(8, 64),
            Some(fault) => Answer::refused(fault.refusal().0, fault.refusal().1),
        };
        case.variable = 1;
        assert_eq!(compare::chosen(&case), wanted, "{:?} in\n{}", chosen, case);
        case.variable = 2;
        let ragged = matches!(chosen.first(), Some(Fault::Ragged | Fault::RaggedRoles));
        let wanted = if ragged { wanted } else { Answer::refused(2, 0) };
        assert_eq!(compare::chosen(&case), wanted, "{:?} in\n{}", chosen, case);
    }
}

#[test]
fn random_cases_agree() {
    let seed = seed("chosen");
    let mut seen = [0; 17];
    let mut most = 0;
    for size in [Size::Small, Size::Medium, Size::Large] {
        for k in 0..cases(size) {
            let mut random = Random::for_case(seed, k);
            let mut case = generate::case(&mut random, size);
            let count = usize::from(case.tables.variables);
            case.variable = random.below(count + 1) as u16;
            case.chosen_room = *random.pick(&[64, 64, 64, 65, 100, 63, 0]);
            let answer = compare::chosen(&case);
            seen[usize::from(answer.number)] += 1;
            most = most.max(answer.value);
        }
    }
    let all_seen = (0..10).chain([16]).all(|number| seen[number] > 0) && most > 32;
    assert!(all_seen || !full_run(), "answers 0 to 9 and 16: {:?}, most {}", seen, most);
}
