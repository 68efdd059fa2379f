//! hc_show: every row of the interpretation where a pair fails, what it shows, every refusal.

use hermitcasket_tests::capi::{self, Answer};
use hermitcasket_tests::compare;
use hermitcasket_tests::families::FAMILIES;
use hermitcasket_tests::faults::{every_set, showing_faults, Fault, FAILING, SHOWN_ROWS};
use hermitcasket_tests::generate::{self, failing_pair};
use hermitcasket_tests::nested::Large;
use hermitcasket_tests::random::{cases, full_run, seed, Random, Size};
use hermitcasket_tests::reference::{self, atoms, countermodel, model};
use hermitcasket_tests::semantics;
use hermitcasket_tests::tables::{Case, Stock, Tables};
use hermitcasket_tests::tally::Tally;

/// A case with a buffer as long as wanted, for a pair that fails.
fn case(tables: &Tables, assignment: &[u64], pair: (u16, u16)) -> Case {
    let mut case = Case::new(tables.clone(), assignment);
    case.pair = pair;
    case.row_room = capi::show(tables.lend(), assignment, pair, &mut []).place as usize;
    case
}

/// The rows as the library writes them, held against the reference.
fn shown(tables: &Tables, assignment: &[u64], pair: (u16, u16)) -> Stock {
    let case = case(tables, assignment, pair);
    let answer = compare::show(&case);
    assert_eq!(answer.number, 0, "for\n{}", case);
    let mut rows = vec![0; case.row_room];
    assert_eq!(capi::show(tables.lend(), assignment, pair, &mut rows), answer);
    Stock { size: tables.concept_count() as u16, rows }
}

/// The rows written here by hand, whichever of the pairs is asked.
fn expect(rows: &[[u16; 4]], tables: &Tables, assignment: &[u64], pairs: &[(u16, u16)]) {
    for &pair in pairs {
        let stock = shown(tables, assignment, pair);
        assert_eq!(stock.split().collect::<Vec<_>>(), rows, "{:?} of\n{}", pair, tables);
    }
}

/// 01's sample tables under the empty choice and under {3}.
#[test]
fn the_sample_tables() {
    let rows = [[1, 5, 0], [1, 7, 0], [2, 1, 0], [1, 9, 0], [4, 0, 0], [3, 1, 4]];
    let tables = Tables::new(&rows, &[[2, 3]], &[[5, 3], [2, 4]], 1);
    let names = [[0, 0, 5, 0], [0, 1, 7, 0], [0, 2, 9, 0], [0, 3, 9, 0]];
    let link = [1, 2, 1, 0];
    let empty = [&names[..], &[[0, 5, 7, 0], link]].concat();
    expect(&empty, &tables, &[0], &[(3, 2), (0, 1), (5, 3), (4, 0), (0, 5)]);
    let pastry = [&names[..], &[[0, 4, 9, 0], [0, 5, 7, 0], [0, 5, 9, 0], link]].concat();
    expect(&pastry, &tables, &[4], &[(3, 2), (0, 4), (4, 5), (1, 5)]);
}

/// Names and links of all that the entry is below, not of the entry alone; a link leads to the
/// inner thing, never to the "some" entry.
#[test]
fn all_that_the_entry_is_below() {
    // 0 and 1 names, 2 "some" of 0, 3 "some" of 2, 4 "1 and 3", 5 top; 0 below 4
    let rows = [[1, 10, 0], [1, 11, 0], [2, 1, 0], [2, 1, 2], [3, 1, 3], [0, 0, 0]];
    let tables = Tables::new(&rows, &[[0, 4]], &[], 0);
    // 0 is below 1 and 3, and so 2 below "some" of 1 or 3, of which there is no entry
    let wanted = [
        [0, 0, 10, 0],
        [0, 0, 11, 0],
        [0, 1, 11, 0],
        [0, 4, 11, 0],
        [1, 0, 1, 2],
        [1, 2, 1, 0],
        [1, 3, 1, 2],
        [1, 4, 1, 2],
    ];
    expect(&wanted, &tables, &[], &[(4, 0), (5, 0), (1, 3), (2, 3), (5, 4)]);
}

/// Two entries of one name, and two that give one link, make one row each.
#[test]
fn copies_make_one_row() {
    let rows = [[1, 5, 0], [1, 5, 0], [2, 3, 0], [2, 3, 0], [2, 3, 1], [2, 4, 0], [1, 6, 0]];
    let tables = Tables::new(&rows, &[], &[], 0).with_roles(&[[4, 3], [3, 3], [4, 3]]);
    let mut wanted = vec![[0, 0, 5, 0], [0, 1, 5, 0], [0, 6, 6, 0]];
    for id in 2..5 {
        wanted.extend([[1, id, 3, 0], [1, id, 3, 1]]);
    }
    wanted.extend([[1, 5, 3, 0], [1, 5, 3, 1], [1, 5, 4, 0]]);
    expect(&wanted, &tables, &[], &[(0, 2), (2, 5), (5, 6), (6, 0)]);
}

/// Each link under every wider role, through chains and circles, and under no narrower one.
#[test]
fn links_under_wider_roles() {
    let rows = [[1, 5, 0], [2, 1, 0], [2, 2, 0], [2, 3, 0]];
    let linked = |pairs: &[[u16; 2]]| {
        let stock = shown(&Tables::new(&rows, &[], &[], 0).with_roles(pairs), &[], (0, 1));
        let of = |id: u16| stock.split().filter(move |row| row[..2] == [1, id]).map(|row| row[2]);
        (1..4).map(|id| of(id).collect()).collect::<Vec<Vec<u16>>>()
    };
    assert_eq!(linked(&[]), [[1], [2], [3]]);
    assert_eq!(linked(&[[1, 2]]), [vec![1, 2], vec![2], vec![3]]);
    assert_eq!(linked(&[[2, 3], [1, 2]]), [vec![1, 2, 3], vec![2, 3], vec![3]]);
    assert_eq!(linked(&[[3, 2], [2, 1]]), [vec![1], vec![1, 2], vec![1, 2, 3]]);
    assert_eq!(linked(&[[1, 2], [2, 3], [3, 1]]), [[1, 2, 3], [1, 2, 3], [1, 2, 3]]);
    // by way of a role that no entry has, and to one
    assert_eq!(linked(&[[1, 9], [9, 3], [3, 99]]), [vec![1, 3, 9, 99], vec![2], vec![3, 99]]);
    assert_eq!(linked(&[[0, 1], [99, 2]]), [[1], [2], [3]]);
}

/// The highest ids, names and roles.
#[test]
fn the_ends_of_the_ranges() {
    let mut rows = vec![[0, 0, 0], [1, 999, 0], [1, 0, 0], [2, 99, 1], [2, 0, 0]];
    rows.resize(190, [0, 0, 0]);
    rows.extend([[1, 999, 0], [2, 99, 190]]);
    let tables = Tables::new(&rows, &[], &[], 0).with_roles(&[[0, 99]]);
    let mut wanted = vec![[0, 1, 999, 0], [0, 2, 0, 0], [0, 190, 999, 0]];
    wanted.extend([[1, 3, 99, 1], [1, 3, 99, 190], [1, 4, 0, 0], [1, 4, 99, 0]]);
    wanted.extend([[1, 191, 99, 1], [1, 191, 99, 190]]);
    expect(&wanted, &tables, &[], &[(0, 1), (191, 190), (189, 191), (4, 3)]);
}

/// Every length up to the wanted one is refused with it; longer buffers keep their rest.
#[test]
fn short_and_long_buffers() {
    let rows = [[1, 5, 0], [1, 6, 0], [2, 7, 0], [0, 0, 0]];
    let mut case = case(&Tables::new(&rows, &[[0, 1]], &[], 0), &[], (1, 0));
    let wanted = 4 * 4;
    assert_eq!(case.row_room, wanted);
    for room in 0..wanted {
        case.row_room = room;
        let answer = compare::show(&case);
        assert_eq!(answer, Answer::refused(8, wanted as u64), "{} numbers", room);
    }
    for room in [wanted, wanted + 1, wanted + 3, wanted + 4, wanted + 5, 5000] {
        case.row_room = room;
        assert_eq!(compare::show(&case), Answer::done(4), "{} numbers", room);
    }
}

/// 15 exactly when the pair holds, with any buffer; what it holds is kept.
#[test]
fn nothing_to_show() {
    let rows = [[1, 5, 0], [1, 6, 0], [0, 0, 0], [4, 0, 0]];
    let mut case = Case::new(Tables::new(&rows, &[[0, 1]], &[], 1), &[0]);
    for (left, right) in (0..4).flat_map(|l| (0..4).map(move |r| (l, r))) {
        case.pair = (left, right);
        let holds = left == right || right > 1 || (left, right) == (0, 1);
        for room in [0, 11, 12, 100] {
            case.row_room = room;
            let wanted = match room {
                _ if holds => Answer::refused(15, 0),
                0 | 11 => Answer::refused(8, 12),
                _ => Answer::done(3),
            };
            assert_eq!(compare::show(&case), wanted, "{:?} in {}", case.pair, room);
        }
    }
    // all are equal: every pair holds
    let same = Tables::new(&[[1, 5, 0]; 3], &[], &[], 0);
    let mut case = Case::new(same, &[]);
    for pair in [(0, 1), (2, 0), (1, 1)] {
        case.pair = pair;
        assert_eq!(compare::show(&case), Answer::refused(15, 0), "{:?}", pair);
    }
}

#[test]
fn a_pair_that_is_no_concept() {
    let tables = Tables::new(&[[0, 0, 0], [1, 5, 0]], &[], &[], 0);
    let mut case = Case::new(tables, &[]);
    for pair in [(2, 0), (0, 2), (2, 2), (65535, 0), (1, 65535), (256, 0), (0, 257)] {
        for room in [0, 100] {
            case.pair = pair;
            case.row_room = room;
            assert_eq!(compare::show(&case), Answer::refused(4, 0), "{:?}", pair);
        }
    }
    let none = Case::new(Tables::default(), &[]);
    assert_eq!(compare::show(&none), Answer::refused(4, 0));
}

/// Every set of faults at once: 1 to 6 with the pair at place 0 of 4, 16, 7, then 9, 15, 8.
#[test]
fn every_set_of_faults() {
    for (mut case, chosen) in every_set(&showing_faults()) {
        if case.pair == (0, 0) {
            case.pair = FAILING;
        }
        let refused = |fault: &Fault| match fault {
            Fault::ShortBuffer => Answer::refused(8, 4 * SHOWN_ROWS as u64),
            _ => Answer::refused(fault.refusal().0, fault.refusal().1),
        };
        let wanted = chosen.first().map_or(Answer::done(SHOWN_ROWS as u64), refused);
        assert_eq!(compare::show(&case), wanted, "{:?} in\n{}", chosen, case);
    }
}

#[test]
fn random_cases_agree() {
    let seed = seed("show");
    let mut seen = [0; 17];
    let mut tally = Tally::new("show");
    for size in [Size::Small, Size::Medium, Size::Large] {
        for k in 0..cases(size) {
            let case = generate::show_case(&mut Random::for_case(seed, k), size);
            let answer = compare::show(&case);
            seen[usize::from(answer.number)] += 1;
            tally.case();
            tally.note("shown", answer.number == 0);
            tally.note("the pair holds", answer.number == 15);
            tally.note("short", answer.number == 8);
            tally.note("refused otherwise", ![0, 8, 15].contains(&answer.number));
        }
    }
    let all_seen = (0..10).chain([15, 16]).all(|number| seen[number] > 0);
    assert!(all_seen || !full_run(), "answers 0 to 9, 15 and 16: {:?}", seen);
    tally.finish(&[
        ("shown", 25..=70),
        ("the pair holds", 5..=50),
        ("short", 3..=30),
        ("refused otherwise", 15..=60),
    ]);
}

/// Accepted tables and assignments, small ones first; a share of each size.
fn accepted(name: &str, shares: [usize; 3]) -> Vec<(Tables, Vec<u64>, Size, Random)> {
    let seed = seed(name);
    let mut all = Vec::new();
    for (size, share) in [Size::Small, Size::Medium, Size::Large].into_iter().zip(shares) {
        for k in 0..(cases(size) / share).max(1) {
            let mut random = Random::for_case(seed, k);
            let tables = generate::valid(&mut random, size);
            let assignment = generate::assignment(&mut random, &tables);
            all.push((tables, assignment, size, random));
        }
    }
    all
}

/// Rising and free of repeats; obeys both tables; the left id belongs to the left and not to the
/// right. Small tables are asked by 01's words, larger ones by membership found once.
#[test]
fn what_is_shown_refutes_the_pair() {
    let mut tally = Tally::new("show, refutes");
    for (tables, assignment, size, mut random) in accepted("show, refutes", [4, 4, 4]) {
        tally.case();
        let pair = failing_pair(&mut random, &tables, &assignment);
        tally.note("all pairs hold", pair.is_none());
        let pair = match pair {
            Some(pair) => pair,
            None => continue,
        };
        let stock = shown(&tables, &assignment, pair);
        let rows: Vec<[u16; 4]> = stock.split().collect();
        assert!(rows.windows(2).all(|two| two[0] < two[1]), "{:?} of\n{}", rows, tables);
        let (left, right) = (usize::from(pair.0), usize::from(pair.1));
        let said = countermodel::read(&stock);
        let chosen = atoms::chosen(&tables, &assignment);
        let (obeys, of_left, of_right) = if size == Size::Small {
            let member = |id| semantics::member(&said, &tables, &chosen, left, id);
            (semantics::obeys(&said, &tables), member(left), member(right))
        } else {
            let members = model::membership(&said, &tables, &chosen);
            (model::obeys(&said, &tables), members[left][left], members[left][right])
        };
        assert!(obeys && of_left && !of_right, "{:?} {:?} of\n{}", pair, rows, tables);
        tally.note("with links", rows.iter().any(|row| row[0] == 1));
    }
    tally.finish(&[("all pairs hold", 0..=50), ("with links", 20..=90)]);
}

/// The interpretation does not depend on the pair: all that fail show the same rows.
#[test]
fn every_failing_pair_shows_the_same() {
    for (tables, assignment, _, mut random) in accepted("show, pairs", [8, 8, 8]) {
        let relation = reference::relation(&tables, &assignment);
        let rows = countermodel::shown_rows(&tables, &relation);
        let mut case = Case::new(tables, &assignment);
        case.row_room = rows.len();
        for pair in generate::pairs(&mut random, &case.tables, 40) {
            let holds = relation[usize::from(pair.0)][usize::from(pair.1)];
            case.pair = pair;
            let expected = if holds { Err(NOTHING) } else { Ok(rows.clone()) };
            compare::show_expecting(&case, expected);
        }
    }
}

const NOTHING: reference::Refusal = reference::Refusal { number: 15, place: 0 };

/// What is shown, given back: a thing belongs to an entry exactly when it is below it.
fn given_back(tables: &Tables, assignment: &[u64], pair: (u16, u16), ids: &[(u16, u16)]) {
    let stock = shown(tables, assignment, pair);
    for &(thing, entry) in ids {
        let rows = (stock.size, &stock.rows[..]);
        let belongs = capi::belongs(tables.lend(), assignment, rows, (entry, thing));
        let below = capi::subsumed(tables.lend(), assignment, (thing, entry));
        assert_eq!(below.number, 0, "for\n{}", tables);
        assert_eq!(belongs, below, "thing {}, entry {} of\n{}", thing, entry, tables);
    }
}

/// Every thing and entry of small tables, and many of larger ones.
#[test]
fn what_is_shown_is_given_back() {
    let mut tally = Tally::new("show, given back");
    for (tables, assignment, _, mut random) in accepted("show, given back", [8, 12, 20]) {
        let pair = failing_pair(&mut random, &tables, &assignment);
        tally.case();
        tally.note("all pairs hold", pair.is_none());
        if let Some(pair) = pair {
            let ids = generate::pairs(&mut random, &tables, 200);
            given_back(&tables, &assignment, pair, &ids);
        }
    }
    tally.finish(&[("all pairs hold", 0..=50)]);
}

/// Every thing and every entry of 48, and many of 192, without and with role pairs.
#[test]
fn families_are_shown_and_given_back() {
    let mut given = 0;
    for (family, (n, most)) in FAMILIES.into_iter().flat_map(|f| [(f, (48, 2304)), (f, (192, 200))])
    {
        for tables in [family.tables(n), family.tables_with_role_pairs(n)] {
            let mut random = Random::new(5);
            let ids = generate::pairs(&mut random, &tables, most);
            if let Some(pair) = failing_pair(&mut random, &tables, &[]) {
                given_back(&tables, &[], pair, &ids);
                given += 1;
            }
        }
    }
    // of the equivalent ones all pairs hold
    assert_eq!(given, 4 * (FAMILIES.len() - 1));
}

/// Questions are checked and not solved: they change nothing but the parts.
#[test]
fn questions_are_not_used() {
    let mut tally = Tally::new("show, questions");
    for (tables, _, _, mut random) in accepted("show, questions", [8, 8, 8]) {
        let nothing = vec![0; usize::from(tables.variables)];
        let unasked = Tables { questions: Vec::new(), ..tables.clone() };
        let pair = failing_pair(&mut random, &tables, &nothing);
        tally.case();
        tally.note("all pairs hold", pair.is_none());
        tally.note("questions", pair.is_some() && !tables.questions.is_empty());
        if let Some(pair) = pair {
            let with = shown(&tables, &nothing, pair);
            assert_eq!(with, shown(&unasked, &nothing, pair), "{:?} of\n{}", pair, tables);
        }
    }
    tally.finish(&[("all pairs hold", 0..=50), ("questions", 40..=100)]);
}

/// Every row of the largest interpretations: 192 things, each with 33 links to 190 or 191 others.
#[test]
fn the_largest_interpretations() {
    for (large, count) in [(Large::over_top(), 1_203_841), (Large::over_name(), 1_210_177)] {
        let (tables, rows) = (&large.tables, large.rows());
        let mut case = case(tables, &[], large.pair);
        assert_eq!((case.row_room, rows.len()), (4 * count, 4 * count));
        let done = Answer::done(count as u64);
        assert_eq!(compare::show_expecting(&case, Ok(rows.clone())), done);
        assert_eq!(reference::show(tables, &[], large.pair, rows.len()), Ok(rows.clone()));
        case.row_room += 7;
        assert_eq!(compare::show_expecting(&case, Ok(rows.clone())), done);
        let short = Answer::refused(8, rows.len() as u64);
        for room in [0, 1, 65_536, rows.len() - 4, rows.len() - 1] {
            let mut out = vec![9; room];
            assert_eq!(capi::show(tables.lend(), &[], large.pair, &mut out), short, "{}", room);
            assert!(out.iter().all(|&number| number == 9), "{}", room);
        }
        let (left, right) = large.pair;
        for (entry, thing, yes) in [(190, 5, 1), (right, left, 0), (1, 191, 1), (right, 6, 0)] {
            let answer = capi::belongs(tables.lend(), &[], (192, &rows), (entry, thing));
            assert_eq!(answer, Answer::done(yes), "entry {}, thing {}", entry, thing);
        }
    }
}

/// The same tables under one assignment, another, and the first again, with a refused call in
/// between: each call gives what it gives alone.
#[test]
fn assignments_do_not_stick() {
    let mut moved = 0;
    for (tables, one, _, mut random) in accepted("show, two assignments", [16, 600, 300]) {
        let two = generate::assignment(&mut random, &tables);
        let refused = [two.clone(), vec![0]].concat();
        let pair = generate::pair(&mut random, &tables);
        for assignment in [&one, &two, &refused, &one] {
            let mut case = Case::new(tables.clone(), assignment);
            case.pair = pair;
            case.row_room = 10_000;
            compare::show(&case);
        }
        let rows = |choices: &[u64]| reference::show(&tables, choices, pair, usize::MAX).ok();
        moved += usize::from(rows(&one) != rows(&two));
    }
    assert!(moved > 0 || !full_run(), "no assignment changed anything");
}
