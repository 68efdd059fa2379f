//! 01's limit cards and everything else at its limits.

use hermitcasket_tests::capi::Answer;
use hermitcasket_tests::compare;
use hermitcasket_tests::families::{Family, FAMILIES};
use hermitcasket_tests::generate;
use hermitcasket_tests::random::{cases, seed, Random, Size};
use hermitcasket_tests::reference::{self, atoms};
use hermitcasket_tests::tables::{Case, Tables};

/// All four operations agree with the reference, and the check answers what is written here.
fn expect(number: u16, place: u64, tables: Tables) {
    let assignment = vec![0; usize::from(tables.variables)];
    let case = Case::new(tables, &assignment);
    let wanted = Answer { number, place, value: 0 };
    assert_eq!(compare::check(&case), wanted, "for\n{}", case);
    compare::all(&case);
}

fn names(count: u16) -> Vec<[u16; 3]> {
    (0..count).map(|name| [1, name, 0]).collect()
}

#[test]
fn concepts() {
    expect(0, 0, Tables::new(&names(192), &[], &[], 0));
    expect(1, 0, Tables::new(&names(193), &[], &[], 0));
    expect(1, 0, Tables::new(&names(194), &[[300, 300]], &[], 9));
    for len in [575, 577, 578] {
        let mut ragged = Tables::new(&names(192), &[], &[], 0);
        ragged.concepts.resize(len, 0);
        expect(1, 0, ragged);
    }
}

#[test]
fn names_and_roles() {
    expect(0, 0, Tables::new(&[[1, 999, 0]], &[], &[], 0));
    expect(2, 0, Tables::new(&[[1, 1000, 0]], &[], &[], 0));
    expect(0, 0, Tables::new(&[[0, 0, 0], [2, 99, 0]], &[], &[], 0));
    expect(2, 1, Tables::new(&[[0, 0, 0], [2, 100, 0]], &[], &[], 0));
    expect(0, 0, Tables::default().with_roles(&[[99, 99]]));
    expect(16, 0, Tables::default().with_roles(&[[99, 100]]));
}

/// From inclusions, from questions, and from both together.
#[test]
fn atoms_64_and_65() {
    let inclusions =
        |from: u16, to: u16| -> Vec<[u16; 2]> { (from..to).map(|id| [id, id]).collect() };
    for (number, place, count) in [(0, 0, 64), (7, 64, 65), (7, 64, 66), (7, 64, 96)] {
        expect(number, place, Tables::new(&names(count), &inclusions(0, count), &[], 0));
        let questions = inclusions(count - 32, count);
        let tables = Tables::new(&names(count), &inclusions(0, count - 32), &questions, 0);
        expect(number, place, tables);
    }
    // a tower of 65 existentials behind one inclusion
    let mut tower = vec![[0, 0, 0]];
    tower.extend((0..65).map(|inner| [2, 0, inner]));
    expect(0, 0, Tables::new(&tower, &[[64, 64]], &[], 0));
    expect(7, 64, Tables::new(&tower, &[[65, 0]], &[], 0));
    // 192 names and existentials, all of them atoms
    let mut all = vec![[1, 0, 0]];
    all.extend((0..191).map(|inner| [2, 0, inner]));
    expect(7, 64, Tables::new(&all, &[[191, 191]], &[], 0));
}

#[test]
fn variables() {
    let rows: Vec<[u16; 3]> = (0..8).map(|variable| [4, variable, 0]).collect();
    expect(0, 0, Tables::new(&rows, &[], &[], 8));
    for count in [9, 16, 256, 264, 65535] {
        expect(1, 3, Tables::new(&rows, &[], &[], count));
    }
    expect(2, 7, Tables::new(&rows, &[], &[], 7));
    expect(2, 0, Tables::new(&rows, &[], &[], 0));
}

#[test]
fn inclusions_questions_and_role_pairs() {
    let top = [[0, 0, 0]];
    expect(0, 0, Tables::new(&top, &[[0, 0]; 96], &[], 0));
    expect(1, 1, Tables::new(&top, &[[0, 0]; 97], &[], 0));
    expect(0, 0, Tables::new(&top, &[], &[[0, 0]; 32], 0));
    expect(1, 2, Tables::new(&top, &[], &[[0, 0]; 33], 0));
    expect(0, 0, Tables::new(&top, &[], &[], 0).with_roles(&[[99, 0]; 32]));
    expect(1, 4, Tables::new(&top, &[], &[], 0).with_roles(&[[99, 0]; 33]));
    let mut places = Tables::new(&top, &[[0, 0]; 96], &[[0, 0]; 32], 0);
    places.questions[63] = 1;
    expect(4, 127, places);
}

/// Counts that look harmless once cut to 8 or 16 bits.
#[test]
fn lengths_past_sixteen_bits() {
    let numbers = |count: usize| vec![0u16; count];
    for count in [256, 257, 65536, 65537, 65536 + 192] {
        let concepts = numbers(3 * count);
        expect(1, 0, Tables { concepts, ..Tables::default() });
        let inclusions = numbers(2 * count);
        expect(1, 1, Tables { inclusions, ..Tables::default() });
        let questions = numbers(2 * count);
        expect(1, 2, Tables { questions, ..Tables::default() });
        let roles = numbers(2 * count);
        expect(1, 4, Tables { roles, ..Tables::default() });
    }
}

/// The buffer for 192 rows wants 4608 bytes.
#[test]
fn table_buffer_of_192_rows() {
    let mut case = Case::new(Tables::new(&names(192), &[[0, 191]], &[], 0), &[]);
    for (room, wanted) in [
        (4607, Answer::refused(8, 4608)),
        (4608, Answer::done(193)),
        (4609, Answer::done(193)),
        (70_000, Answer::done(193)),
    ] {
        case.table_room = room;
        assert_eq!(compare::table(&case), wanted, "{} bytes", room);
    }
}

/// The highest position may be chosen exactly when there are 64 atoms.
#[test]
fn highest_chosen_bit() {
    // 64 names and the variable, which is the last of them
    for (count, wanted) in [(64, Answer::done(67)), (63, Answer::refused(9, 7))] {
        let mut rows = names(count);
        rows.push([4, 7, 0]);
        let inclusions: Vec<[u16; 2]> = (0..count).map(|id| [id, id]).collect();
        let tables = Tables::new(&rows, &inclusions, &[], 8);
        let mut case = Case::new(tables, &[0, 0, 0, 0, 0, 0, 0, 1 << 63]);
        assert_eq!(compare::table(&case), wanted, "{} atoms", count);
        case.pair = (count, 63);
        let decided = compare::decide(&case);
        assert_eq!(decided.number, wanted.number);
        assert_eq!(decided.value, u64::from(count == 64));
    }
}

/// Row 191 and column 191 are reached.
#[test]
fn last_row_and_column() {
    let mut rows = names(192);
    rows[0] = [0, 0, 0];
    let tables = Tables::new(&rows, &[[0, 191], [191, 1]], &[], 0);
    let case = Case::new(tables, &[]);
    compare::table(&case);
    for (pair, value) in [((5, 191), 1), ((191, 1), 1), ((191, 190), 0), ((190, 191), 1)] {
        let mut asked = case.clone();
        asked.pair = pair;
        assert_eq!(compare::decide(&asked), Answer::done(value), "{:?}", pair);
    }
}

/// Every family of the benchmark, at every size it is timed at; with 32 role pairs too, which
/// change no mark.
#[test]
fn families_agree() {
    for family in FAMILIES.into_iter().chain([Family::Towers]) {
        for n in [24, 48, 96, 192] {
            let tables = family.tables(n);
            assert_eq!(reference::check(&tables), Ok(()), "{:?} {}", family, n);
            assert_eq!(tables.concept_count(), n);
            assert_eq!(tables.inclusion_pairs().len(), n / 2);
            let case = Case::new(tables, &[]);
            compare::all(&case);
            let wide = family.tables_with_role_pairs(n);
            assert_eq!(wide.role_pairs().count(), 32);
            let wide = Case::new(wide, &[]);
            compare::all(&wide);
            assert_eq!(compare::table(&wide), compare::table(&case), "{:?} {}", family, n);
        }
    }
}

/// 192 concepts, 96 inclusions, 32 questions, 32 role pairs, 8 variables and 64 atoms at once.
#[test]
fn all_limits_at_once() {
    let seed = seed("limits");
    for k in 0..cases(Size::Large) {
        let mut random = Random::for_case(seed, k);
        let mut tables = generate::full(&mut random);
        generate::add_role_pairs(&mut random, 32, &mut tables);
        assert_eq!(tables.concept_count(), 192);
        assert_eq!(tables.inclusion_pairs().len(), 96);
        assert_eq!(tables.question_pairs().len(), 32);
        assert_eq!(tables.role_pairs().count(), 32);
        assert_eq!(atoms::list(&tables).len(), 64);
        let assignment = generate::assignment(&mut random, &tables);
        let case = Case::new(tables, &assignment);
        assert_eq!(compare::check(&case), Answer::done(0));
        assert_eq!(compare::atoms(&case), Answer::done(64));
        assert_eq!(compare::table(&case).number, 0);
    }
}

/// Towers of 191 existentials and of 191 conjunctions: depth costs nothing.
#[test]
fn deep_towers() {
    let mut links = vec![[1, 0, 0]];
    links.extend((0..191).map(|inner| [2, 0, inner]));
    expect(0, 0, Tables::new(&links, &[[0, 1]], &[], 0));
    expect(0, 0, Tables::new(&links, &[[1, 0]], &[], 0));
    let mut both = vec![[1, 0, 0]];
    both.extend((0..191).map(|inner| [3, inner, inner]));
    expect(0, 0, Tables::new(&both, &[[191, 0], [0, 191]], &[[0, 191]], 0));
    both[0] = [4, 0, 0];
    expect(6, 0, Tables::new(&both, &[], &[[191, 191]], 1));
    expect(5, 0, Tables::new(&both, &[[191, 191]], &[], 1));
}
