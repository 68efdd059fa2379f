//! hc_subsumption_table: every bit, every byte past the rows, the number of marks, every refusal.

use hermitcasket_tests::capi::{self, Answer};
use hermitcasket_tests::compare;
use hermitcasket_tests::families::Family;
use hermitcasket_tests::faults::{base, every_set, Fault, FAULTS};
use hermitcasket_tests::generate;
use hermitcasket_tests::limits::ROW_BYTES;
use hermitcasket_tests::random::{cases, full_run, seed, Random, Size};
use hermitcasket_tests::reference;
use hermitcasket_tests::tables::{Case, Tables};

/// Rows of the table as lists of the ids above each id.
fn above(tables: &Tables, assignment: &[u64]) -> Vec<Vec<usize>> {
    compare::table(&Case::new(tables.clone(), assignment));
    let count = tables.concept_count();
    let mut bytes = vec![0xa5; count * ROW_BYTES];
    let answer = capi::subsumption_table(tables.lend(), assignment, &mut bytes);
    assert_eq!(answer.number, 0, "for\n{}", tables);
    let bit = |i: usize, j: usize| bytes[i * ROW_BYTES + j / 8] >> (j % 8) & 1 == 1;
    let row = |i: usize| (0..8 * ROW_BYTES).filter(|&j| bit(i, j)).collect();
    (0..count).map(row).collect()
}

/// Names, twins, top, conjunctions and existentials without any inclusion.
#[test]
fn rules_without_inclusions() {
    let rows = [
        [1, 5, 0],
        [1, 5, 0],
        [1, 6, 0],
        [0, 0, 0],
        [2, 1, 0],
        [2, 1, 1],
        [2, 2, 0],
        [2, 1, 3],
        [3, 0, 2],
        [3, 2, 1],
    ];
    let expected = vec![
        vec![0, 1, 3],
        vec![0, 1, 3],
        vec![2, 3],
        vec![3],
        vec![3, 4, 5, 7],
        vec![3, 4, 5, 7],
        vec![3, 6],
        vec![3, 7],
        vec![0, 1, 2, 3, 8, 9],
        vec![0, 1, 2, 3, 8, 9],
    ];
    assert_eq!(above(&Tables::new(&rows, &[], &[], 0), &[]), expected);
}

/// An inclusion works inside "some", at every depth.
#[test]
fn inclusions_inside_existentials() {
    let rows = [[1, 1, 0], [1, 2, 0], [2, 0, 0], [2, 0, 1], [2, 3, 2], [2, 3, 3], [2, 4, 2]];
    let expected = vec![vec![0, 1], vec![1], vec![2, 3], vec![3], vec![4, 5], vec![5], vec![6]];
    assert_eq!(above(&Tables::new(&rows, &[[0, 1]], &[], 0), &[]), expected);
}

/// An inclusion whose left side is a conjunction, reached through two others.
#[test]
fn inclusions_from_conjunctions() {
    let rows = [[1, 1, 0], [1, 2, 0], [1, 3, 0], [1, 4, 0], [3, 1, 2]];
    let inclusions = [[0, 1], [0, 2], [4, 3]];
    let expected = vec![vec![0, 1, 2, 3, 4], vec![1], vec![2], vec![3], vec![1, 2, 3, 4]];
    assert_eq!(above(&Tables::new(&rows, &inclusions, &[], 0), &[]), expected);
}

/// Left and right of the variable, with an empty choice, one atom, and two of higher ids.
#[test]
fn variables_read_their_choice() {
    let rows = [[4, 0, 0], [1, 1, 0], [1, 2, 0], [3, 1, 2], [3, 2, 0]];
    let tables = Tables::new(&rows, &[[1, 1], [2, 2]], &[], 1);
    // with the empty choice 0 is top, and 4 is 2 again
    let empty = vec![vec![0], vec![0, 1], vec![0, 2, 4], vec![0, 1, 2, 3, 4], vec![0, 2, 4]];
    assert_eq!(above(&tables, &[0]), empty);
    let first = vec![vec![0, 1], vec![0, 1], vec![2], vec![0, 1, 2, 3, 4], vec![0, 1, 2, 3, 4]];
    assert_eq!(above(&tables, &[1]), first);
    let both =
        vec![vec![0, 1, 2, 3, 4], vec![1], vec![2], vec![0, 1, 2, 3, 4], vec![0, 1, 2, 3, 4]];
    assert_eq!(above(&tables, &[3]), both);
}

/// 2 concepts and 47 bytes are refusal 8 with place 48; longer buffers keep their rest.
#[test]
fn short_and_long_buffers() {
    let rows = [[1, 5, 0], [0, 0, 0]];
    for room in [0, 1, 24, 47] {
        let mut case = Case::new(Tables::new(&rows, &[], &[], 0), &[]);
        case.table_room = room;
        assert_eq!(compare::table(&case), Answer::refused(8, 48), "{} bytes", room);
    }
    for room in [48, 49, 72, 5000] {
        let mut case = Case::new(Tables::new(&rows, &[], &[], 0), &[]);
        case.table_room = room;
        assert_eq!(compare::table(&case), Answer::done(3), "{} bytes", room);
    }
    let mut none = Case::new(Tables::default(), &[]);
    assert_eq!(compare::table(&none), Answer::done(0));
    none.table_room = 30;
    assert_eq!(compare::table(&none), Answer::done(0));
}

/// The count of numbers is tested first, and its place is the count of blanks.
#[test]
fn assignments() {
    let answer = |variables: u16, assignment: &[u64]| {
        let tables = Tables::new(&[[1, 5, 0], [1, 6, 0]], &[[0, 1]], &[], variables);
        compare::table(&Case::new(tables, assignment))
    };
    assert_eq!(answer(2, &[3, 3]), Answer::done(3));
    assert_eq!(answer(2, &[3, 4]), Answer::refused(9, 1));
    assert_eq!(answer(2, &[1 << 63, 4]), Answer::refused(9, 0));
    assert_eq!(answer(2, &[0]), Answer::refused(9, 2));
    assert_eq!(answer(2, &[]), Answer::refused(9, 2));
    assert_eq!(answer(2, &[4, 4, 4]), Answer::refused(9, 2));
    assert_eq!(answer(0, &[0]), Answer::refused(9, 0));
    assert_eq!(answer(0, &[]), Answer::done(3));
    // no atoms, choice 1
    let none = Tables::new(&[], &[], &[], 1);
    assert_eq!(compare::table(&Case::new(none.clone(), &[1])), Answer::refused(9, 0));
    assert_eq!(compare::table(&Case::new(none, &[0])), Answer::done(0));
}

/// The marks of `base`: 2 tops and 2 empty choices above all 75, 95 among the names, 37 more of and
/// above the conjunctions.
const BASE_MARKS: u64 = 432;

/// Every set of faults at once: 1 to 6, 16, 7, then 9, then 8. The pair is not asked for.
#[test]
fn every_set_of_faults() {
    let mut faults = FAULTS.to_vec();
    faults.retain(|&fault| fault != Fault::LonePair);
    for (case, chosen) in every_set(&faults) {
        let refused = |fault: &Fault| Answer::refused(fault.refusal().0, fault.refusal().1);
        let wanted = chosen.first().map_or(Answer::done(BASE_MARKS), refused);
        assert_eq!(compare::table(&case), wanted, "{:?} in\n{}", chosen, case);
    }
}

#[test]
fn random_tables_agree() {
    let seed = seed("table");
    let mut seen = [0; 17];
    for size in [Size::Small, Size::Medium, Size::Large] {
        for k in 0..cases(size) {
            let case = generate::case(&mut Random::for_case(seed, k), size);
            seen[usize::from(compare::table(&case).number)] += 1;
        }
    }
    let all_seen = (0..10).chain([16]).all(|number| seen[number] > 0);
    assert!(all_seen || !full_run(), "answers 0 to 9 and 16: {:?}", seen);
}

/// The same tables under one assignment, another, and the first again, with a refused call in
/// between: each call gives what it gives alone.
#[test]
fn assignments_do_not_stick() {
    let seed = seed("table, two assignments");
    let mut moved = 0;
    for k in 0..cases(Size::Medium) {
        let mut random = Random::for_case(seed, k);
        let tables = generate::valid(&mut random, Size::Small);
        let one = generate::assignment(&mut random, &tables);
        let two = generate::assignment(&mut random, &tables);
        let refused = [two.clone(), vec![0]].concat();
        for assignment in [&one, &two, &refused, &one] {
            compare::all(&Case::new(tables.clone(), assignment));
        }
        let differs = reference::relation(&tables, &one) != reference::relation(&tables, &two);
        moved += usize::from(differs);
    }
    assert!(moved > 0 || !full_run(), "no assignment changed anything");
}

/// Calls with a buffer that holds `before`; the answer, and the buffer afterwards.
fn write_over(tables: &Tables, assignment: &[u64], before: &[u8]) -> (Answer, Vec<u8>) {
    let mut bytes = before.to_vec();
    let answer = capi::subsumption_table(tables.lend(), assignment, &mut bytes);
    (answer, bytes)
}

fn ones(bytes: &[u8]) -> u64 {
    bytes.iter().map(|byte| u64::from(byte.count_ones())).sum()
}

/// The marks as reported and, the same, as the rows show them.
fn marks(tables: &Tables, assignment: &[u64]) -> u64 {
    let before = vec![0xff; tables.concept_count() * ROW_BYTES];
    let (answer, bytes) = write_over(tables, assignment, &before);
    assert_eq!(answer, Answer::done(ones(&bytes)), "for\n{}", tables);
    compare::table(&Case::new(tables.clone(), assignment));
    answer.value
}

/// Random tables that are accepted, with an assignment each.
fn accepted(name: &str, share: usize) -> Vec<(Tables, Vec<u64>)> {
    let seed = seed(name);
    let mut all = Vec::new();
    for size in [Size::Small, Size::Medium, Size::Large] {
        for k in 0..(cases(size) / share).max(1) {
            let mut random = Random::for_case(seed, k);
            let tables = generate::valid(&mut random, size);
            let assignment = generate::assignment(&mut random, &tables);
            all.push((tables, assignment));
        }
    }
    all
}

/// What stood in the rows, and what stands past them, is not counted.
#[test]
fn the_value_is_the_ones_of_the_rows_whatever_the_buffer_held() {
    let mut random = Random::new(14);
    for (tables, assignment) in accepted("table, ones of the rows", 4) {
        let rows = tables.concept_count() * ROW_BYTES;
        let long = rows + random.between(1, 60);
        let noise: Vec<u8> = (0..long).map(|_| random.number() as u8).collect();
        let mut seen = Vec::new();
        for before in [vec![0xff; long], noise, vec![0; rows]] {
            let (answer, bytes) = write_over(&tables, &assignment, &before);
            assert_eq!(answer, Answer::done(ones(&bytes[..rows])), "for\n{}", tables);
            assert_eq!(bytes[rows..], before[rows..], "for\n{}", tables);
            seen.push(answer.value);
        }
        assert!(seen.iter().all(|&value| value == seen[0]), "{:?} for\n{}", seen, tables);
    }
}

/// Nothing is below anything but itself: names that differ, and "some" over them.
#[test]
fn diagonal_only_has_as_many_marks_as_entries() {
    for count in [1, 2, 7, 8, 9, 63, 64, 65, 128, 191, 192] {
        let names: Vec<[u16; 3]> = (0..count).map(|name| [1, name, 0]).collect();
        assert_eq!(marks(&Tables::new(&names, &[], &[], 0), &[]), u64::from(count));
        let half = (count + 1) / 2;
        let over = (0..count - half).map(|inner| [2, 5, inner]);
        let rows: Vec<[u16; 3]> = names[..usize::from(half)].iter().copied().chain(over).collect();
        assert_eq!(marks(&Tables::new(&rows, &[], &[], 0), &[]), u64::from(count));
    }
}

/// One name, top, blanks of one choice, or a ring of inclusions: all 192 rows are full.
#[test]
fn all_equivalent_has_36864_marks() {
    let same = |row: [u16; 3], variables| Tables::new(&[row; 192], &[], &[], variables);
    assert_eq!(marks(&same([1, 5, 0], 0), &[]), 36_864);
    assert_eq!(marks(&same([0, 0, 0], 0), &[]), 36_864);
    assert_eq!(marks(&same([4, 7, 0], 8), &[0; 8]), 36_864);
    assert_eq!(marks(&Family::Equivalent.tables(192), &[]), 36_864);
}

#[test]
fn no_entries_have_no_marks() {
    for room in [0, 1, 24, 5000] {
        for variables in [0, 1, 8] {
            let tables = Tables::new(&[], &[], &[], variables);
            let assignment = vec![0; usize::from(variables)];
            let before = vec![0xff; room];
            let (answer, bytes) = write_over(&tables, &assignment, &before);
            assert_eq!(answer, Answer::done(0), "{} bytes", room);
            assert_eq!(bytes, before);
        }
    }
}

/// Over a buffer of ones, and over the table of an accepted call, whose marks must not show again.
#[test]
fn a_refusal_has_value_0_and_leaves_the_buffer() {
    let good = base();
    let full = vec![0xff; good.table_room + 100];
    let (answer, table) = write_over(&good.tables, &good.assignment, &full);
    assert_eq!(answer, Answer::done(BASE_MARKS));
    for fault in FAULTS.into_iter().filter(|&fault| fault != Fault::LonePair) {
        let mut case = base();
        fault.put_into(&mut case);
        let room = if fault == Fault::ShortBuffer { case.table_room } else { full.len() };
        for before in [&full[..room], &table[..room]] {
            let (answer, bytes) = write_over(&case.tables, &case.assignment, before);
            let (number, place) = fault.refusal();
            assert_eq!(answer, Answer { number, place, value: 0 }, "{:?}", fault);
            assert!(bytes == before, "{:?}", fault);
        }
    }
}

#[test]
fn the_value_is_between_the_entries_and_their_square() {
    let (mut least, mut most, mut inside) = (0, 0, 0);
    for (tables, assignment) in accepted("table, between", 4) {
        let before = vec![0; tables.concept_count() * ROW_BYTES];
        let (answer, _) = write_over(&tables, &assignment, &before);
        let (count, value) = (tables.concept_count() as u64, answer.value);
        assert_eq!(answer.number, 0, "for\n{}", tables);
        assert!(count <= value && value <= count * count, "{} for\n{}", value, tables);
        least += usize::from(value == count && count > 1);
        most += usize::from(value == count * count && count > 1);
        inside += usize::from(count < value && value < count * count);
    }
    let all_seen = least > 0 && most > 0 && inside > 0;
    assert!(all_seen || !full_run(), "{} least, {} most, {} inside", least, most, inside);
}
