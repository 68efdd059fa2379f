//! hc_match: the first solution bit for bit, or none, on tiny problems, at the limits and on the
//! hard families.

use hermitcasket_tests::capi::{self, Answer};
use hermitcasket_tests::compare;
use hermitcasket_tests::faults::{every_set, table_faults, Fault};
use hermitcasket_tests::generate;
use hermitcasket_tests::hard::{self, Hard, Known};
use hermitcasket_tests::limits::MAX_INCLUSIONS;
use hermitcasket_tests::random::{cases, full_run, seed, Random, Size};
use hermitcasket_tests::reference::{self, matching, Refusal};
use hermitcasket_tests::semantics::signature;
use hermitcasket_tests::substitution::{self, Rows};
use hermitcasket_tests::tables::{Case, Tables};
use hermitcasket_tests::tally::Tally;

const NONE: Refusal = Refusal { number: 10, place: 0 };

fn case_of(tables: &Tables) -> Case {
    Case::new(tables.clone(), &[])
}

/// The answer written here by hand, from the library and from the reference.
fn expect(first: Option<&[u64]>, tables: &Tables) {
    let case = case_of(tables);
    let wanted = first.map(<[u64]>::to_vec).ok_or(NONE);
    compare::find_expecting(&case, wanted.clone());
    assert_eq!(reference::find(tables, case.match_room), wanted, "for\n{}", tables);
}

/// 01's cards H, I and J.
#[test]
fn sample_cards() {
    let rows = [[1, 5, 0], [1, 7, 0], [2, 1, 0], [1, 9, 0], [4, 0, 0], [3, 1, 4]];
    let ask = |questions: &[[u16; 2]]| Tables::new(&rows, &[[2, 3]], questions, 1);
    expect(Some(&[4]), &ask(&[[5, 3], [2, 4]]));
    expect(None, &ask(&[[5, 3], [0, 4]]));
    expect(Some(&[0]), &ask(&[]));
}

/// {1} is earlier than {0}, blank 0 counts first, blanks in no question stay empty.
#[test]
fn order_of_assignments() {
    // 0 and 1 are below each other: either makes the variable below both
    let rows = [[1, 5, 0], [1, 6, 0], [4, 0, 0], [4, 1, 0], [3, 2, 3]];
    let alike = [[0, 1], [1, 0]];
    expect(Some(&[2]), &Tables::new(&rows[..3], &alike, &[[2, 0]], 1));
    // any of two variables may bring the name: the later one does
    expect(Some(&[0, 2]), &Tables::new(&rows, &alike, &[[4, 1]], 2));
    expect(Some(&[2, 0]), &Tables::new(&rows, &alike, &[[2, 1]], 2));
    expect(Some(&[0; 8]), &Tables::new(&rows, &alike, &[], 8));
}

/// Without variables the questions are only asked.
#[test]
fn questions_without_variables() {
    let rows = [[1, 5, 0], [1, 6, 0]];
    expect(Some(&[]), &Tables::new(&rows, &[[0, 1]], &[[0, 1]], 0));
    expect(None, &Tables::new(&rows, &[[0, 1]], &[[0, 1], [1, 0]], 0));
    expect(Some(&[]), &Tables::default());
    // one question without variables decides for all
    let rows = [[1, 5, 0], [1, 6, 0], [4, 0, 0]];
    expect(None, &Tables::new(&rows, &[], &[[2, 0], [0, 1]], 1));
    expect(Some(&[0]), &Tables::new(&rows, &[], &[[0, 2], [0, 0]], 1));
}

/// Inclusions supply atoms too, and a blank on the right does not take all.
#[test]
fn burnt_before() {
    // 3 is below 1 through an inclusion only: atoms 1, 3; the question has its variable left
    let rows = [[4, 0, 0], [1, 1, 0], [1, 2, 0], [1, 3, 0]];
    expect(Some(&[2]), &Tables::new(&rows, &[[3, 1]], &[[0, 1], [3, 0]], 1));
    // on the right alone the empty choice is right, and comes first
    expect(Some(&[0]), &Tables::new(&rows, &[[3, 1]], &[[2, 0], [3, 0]], 1));
    // inside "some", through an inclusion inside "some"
    let rows = [[4, 0, 0], [1, 1, 0], [1, 2, 0], [2, 0, 0], [2, 0, 2], [2, 0, 1]];
    expect(Some(&[1]), &Tables::new(&rows, &[[1, 2]], &[[3, 4], [5, 3], [3, 5]], 1));
}

/// Few enough choices to try them all; most of the problems that nothing chosen solves are left
/// out, since they would be the greater part.
fn tiny(random: &mut Random, most: usize) -> Tables {
    loop {
        let mut tables = generate::valid(random, Size::Small);
        tables.questions.truncate(2 * random.between(1, 4));
        if matching::choices(&tables) > most || tables.questions.is_empty() {
            continue;
        }
        let nothing = vec![0; usize::from(tables.variables)];
        if random.percent(25) || !matching::solves(&tables, &nothing) {
            return tables;
        }
    }
}

/// Answer and first solution bit for bit against every assignment in order; buffers of any length.
#[test]
fn tiny_problems_against_brute_force() {
    let seed = seed("matching, brute force");
    let mut tally = Tally::new("matching, brute force");
    for k in 0..cases(Size::Small) / 3 {
        let mut random = Random::for_case(seed, k);
        let tables = tiny(&mut random, 10);
        let mut case = case_of(&tables);
        case.match_room += random.below(3);
        let expected = matching::brute_force(&tables);
        assert_eq!(matching::first_solution(&tables), expected, "the search, for\n{}", tables);
        compare::find_expecting(&case, expected.clone().ok_or(NONE));
        let empty = |first: &Vec<u64>| first.iter().all(|&choice| choice == 0);
        tally.case();
        tally.note("none", expected.is_none());
        tally.note("empty", expected.as_ref().map_or(false, empty));
        tally.note("chosen", expected.as_ref().map_or(false, |first| !empty(first)));
    }
    tally.finish(&[("none", 20..=80), ("empty", 15..=80), ("chosen", 15..=80)]);
}

/// Random cases, damaged or not, against the search.
#[test]
fn random_cases_agree() {
    let seed = seed("matching");
    let mut seen = [0; 17];
    let mut tally = Tally::new("matching");
    for (size, share) in [(Size::Small, 4), (Size::Medium, 4), (Size::Large, 8)] {
        for k in 0..(cases(size) / share).max(1) {
            let mut random = Random::for_case(seed, k);
            let mut case = generate::case(&mut random, size);
            case.tables.questions.truncate(2 * random.between(0, 32));
            case.match_room = usize::from(case.tables.variables).min(20) + random.below(3);
            if random.percent(15) {
                case.match_room = random.below(9);
            }
            let answer = compare::find(&case);
            seen[usize::from(answer.number)] += 1;
            tally.case();
            let asked = case.tables.questions.len() > 2;
            tally.note("filled, more than one question", answer.number == 0 && asked);
            tally.note("none", answer.number == 10);
            tally.note("refused", !matches!(answer.number, 0 | 10));
        }
    }
    let all_seen = (0..11).filter(|&n| n != 9).chain([16]).all(|n| seen[n] > 0);
    assert!(all_seen || !full_run(), "answers 0 to 10 and 16: {:?}", seen);
    let filled = "filled, more than one question";
    tally.finish(&[(filled, 10..=100), ("none", 10..=100), ("refused", 20..=50)]);
}

/// Questions that a hidden assignment solves: never none.
#[test]
fn hidden_solutions_agree() {
    let seed = seed("matching, hidden solutions");
    let mut tally = Tally::new("matching, hidden solutions");
    for (size, share) in [(Size::Small, 8), (Size::Medium, 8), (Size::Large, 10)] {
        for k in 0..(cases(size) / share).max(1) {
            let mut random = Random::for_case(seed, k);
            let mut tables = generate::valid(&mut random, size);
            let hidden = generate::assignment(&mut random, &tables);
            let below = reference::relation(&tables, &hidden);
            let atoms = reference::atoms::list(&tables);
            let kept: Vec<u16> = tables
                .questions
                .chunks_exact(2)
                .filter(|pair| below[usize::from(pair[0])][usize::from(pair[1])])
                .flatten()
                .copied()
                .collect();
            tables.questions = kept;
            keep_atoms(&mut tables, &atoms);
            // with other atoms the hidden assignment is another
            let skipped = reference::atoms::list(&tables) != atoms;
            if !skipped {
                assert_eq!(compare::find(&case_of(&tables)), Answer::done(0), "{}", tables);
            }
            tally.case();
            tally.note("skipped", skipped);
            tally.note("more than one question", !skipped && tables.questions.len() > 2);
        }
    }
    tally.finish(&[("skipped", 0..=2), ("more than one question", 20..=100)]);
}

/// Atoms that fewer questions would lose stay by an inclusion of each in itself, while there is
/// room.
fn keep_atoms(tables: &mut Tables, atoms: &[usize]) {
    for &id in atoms {
        let lost = !reference::atoms::list(tables).contains(&id);
        if lost && tables.inclusions.len() < 2 * MAX_INCLUSIONS {
            tables.inclusions.extend([id as u16; 2]);
        }
    }
}

/// What is written solves by the reference's own relation, as an assignment and as a
/// substitution; where none is found, no small concepts solve either, fresh names and roles
/// included.
#[test]
fn substitutions() {
    let seed = seed("matching, substitutions");
    let mut tally = Tally::new("matching, substitutions");
    for k in 0..cases(Size::Small) / 12 {
        let mut random = Random::for_case(seed, k);
        let tables = tiny(&mut random, 64);
        let mut out = vec![0; usize::from(tables.variables)];
        let answer = capi::find(tables.lend(), &mut out);
        tally.case();
        tally.note("filled", answer.number == 0);
        tally.note("none", answer.number == 10);
        if answer.number == 0 {
            assert!(matching::solves(&tables, &out), "{:?} for\n{}", out, tables);
            let concepts = as_substitution(&tables, &out);
            assert!(substitution::solves(&tables, &concepts), "{:?} for\n{}", out, tables);
            continue;
        }
        assert_eq!(answer, Answer::refused(10, 0), "for\n{}", tables);
        let (mut names, mut roles) = signature(&tables);
        names.push(65535);
        roles.push(65535);
        for _ in 0..20 {
            let concept = |_| substitution::random_concept(&mut random, 6, &names, &roles);
            let concepts: Vec<Rows> = (0..tables.variables).map(concept).collect();
            assert!(!substitution::solves(&tables, &concepts), "{:?} for\n{}", concepts, tables);
        }
    }
    tally.finish(&[("filled", 20..=80), ("none", 20..=80)]);
}

/// The rows of each variable's concept: all rows without variables, then top and the chosen ids
/// joined one by one.
fn as_substitution(tables: &Tables, assignment: &[u64]) -> Vec<Rows> {
    let count = tables.concept_count() as u16;
    let ground: Rows = (0..tables.concept_count())
        .map(|id| if tables.row(id)[0] == 4 { [0, 0, 0] } else { tables.row(id) })
        .chain([[0, 0, 0]])
        .collect();
    let rows = |ids: Vec<usize>| {
        let mut rows = ground.clone();
        for (k, id) in ids.into_iter().enumerate() {
            rows.push([3, count + k as u16, id as u16]);
        }
        rows
    };
    reference::atoms::chosen(tables, assignment).into_iter().map(rows).collect()
}

/// Random small substitutions that solve are found out of necessity: the matcher answers too.
#[test]
fn a_substitution_that_solves_forbids_none() {
    let seed = seed("matching, locality");
    let mut tally = Tally::new("matching, locality");
    for k in 0..cases(Size::Small) / 12 {
        let mut random = Random::for_case(seed, k);
        let tables = tiny(&mut random, 64);
        let (names, roles) = signature(&tables);
        for _ in 0..6 {
            let concept = |_| substitution::random_concept(&mut random, 4, &names, &roles);
            let concepts: Vec<Rows> = (0..tables.variables).map(concept).collect();
            let solves = substitution::solves(&tables, &concepts);
            tally.case();
            tally.note("solves", solves);
            if solves {
                let mut out = vec![0; usize::from(tables.variables)];
                assert_eq!(capi::find(tables.lend(), &mut out), Answer::done(0), "{}", tables);
            }
        }
    }
    tally.finish(&[("solves", 10..=90)]);
}

/// 8 with the number of variables, before 10; longer buffers keep their rest.
#[test]
fn short_buffers() {
    let rows = [[1, 5, 0], [4, 0, 0], [4, 2, 0]];
    let solvable = Tables::new(&rows, &[], &[[1, 0]], 3);
    let unsolvable = Tables::new(&rows, &[], &[[1, 0], [2, 0], [0, 1]], 3);
    let none = Tables::new(&[[1, 5, 0], [1, 6, 0]], &[], &[[0, 1]], 3);
    for (tables, wanted) in [(solvable, 0), (unsolvable, 0), (none, 10)] {
        let mut case = case_of(&tables);
        for room in 0..3 {
            case.match_room = room;
            assert_eq!(compare::find(&case), Answer::refused(8, 3), "{} numbers", room);
        }
        for room in [3, 4, 8, 100] {
            case.match_room = room;
            assert_eq!(compare::find(&case).number, wanted, "{} numbers", room);
        }
    }
}

/// Every set of faults at once: 1 to 6, 16, 7, then 8. No assignment and no pair is asked for.
#[test]
fn every_set_of_faults() {
    let mut faults = table_faults(false);
    faults.push(Fault::ShortBuffer);
    for (case, chosen) in every_set(&faults) {
        let wanted = match chosen.first() {
            None => Answer::done(0),
            Some(Fault::ShortBuffer) => Answer::refused(8, 2),
            Some(fault) => Answer::refused(fault.refusal().0, fault.refusal().1),
        };
        assert_eq!(compare::find(&case), wanted, "{:?} in\n{}", chosen, case);
        // the same with a question that nothing solves: 10 comes last
        let mut unsolvable = case.clone();
        unsolvable.tables.questions.splice(0..0, [0, 3]);
        let first = chosen.first();
        let late = first.is_none();
        let moved = matches!(first, Some(Fault::VariablesOnBothSides));
        let wanted = match wanted {
            _ if late => Answer::refused(10, 0),
            _ if moved => Answer::refused(6, 2),
            other => other,
        };
        assert_eq!(compare::find(&unsolvable), wanted, "{:?} in\n{}", chosen, unsolvable);
    }
}

/// Two problems in turn, with a refused call in between: each call gives what it gives alone.
#[test]
fn answers_do_not_stick() {
    let seed = seed("matching, in a row");
    for k in 0..cases(Size::Medium) / 4 {
        let mut random = Random::for_case(seed, k);
        let one = generate::valid(&mut random, Size::Small);
        let two = generate::valid(&mut random, Size::Small);
        let mut refused = two.clone();
        refused.questions.push(0);
        let alone: Vec<_> = [&one, &two].map(|t| reference::find(t, 8)).into_iter().collect();
        for _ in 0..2 {
            for (tables, expected) in [(&one, &alone[0]), (&two, &alone[1])] {
                let mut case = case_of(tables);
                case.match_room = 8;
                compare::find_expecting(&case, expected.clone());
                compare::find(&case_of(&refused));
            }
        }
        // the questions of both, asked together and one by one, in the same tables
        for question in one.questions.chunks_exact(2) {
            let alone = Tables { questions: question.to_vec(), ..one.clone() };
            compare::find(&case_of(&alone));
        }
        compare::find(&case_of(&one));
    }
}

/// The answer agrees with the search and with what is known of the family.
fn agree(problem: &Hard) {
    let case = case_of(&problem.tables);
    let found = reference::find(&problem.tables, case.match_room);
    match &problem.known {
        Known::First(first) => assert_eq!(found.as_ref(), Ok(first), "{}", problem.label),
        Known::Solvable => assert!(found.is_ok(), "{}", problem.label),
        Known::Unsolvable => assert_eq!(found, Err(NONE), "{}", problem.label),
        Known::Open => {}
    }
    if let Ok(first) = &found {
        assert!(matching::solves(&problem.tables, first), "{}", problem.label);
    }
    compare::find_expecting(&case, found);
}

#[test]
fn harmless_atoms() {
    for k in [1, 2, 3, 8, 20, 40, 59, 60] {
        hard::with_harmless(k).iter().for_each(agree);
    }
}

#[test]
fn random_at_the_limits() {
    let seed = seed("matching, limits");
    for k in 0..(cases(Size::Large) as u64 / 30).max(1) {
        hard::at_the_limits(seed.wrapping_add(k)).iter().for_each(agree);
    }
}

#[test]
fn puzzles_at_small_size() {
    let seed = seed("matching, puzzles");
    let mut unsolvable = 0;
    for k in 0..(cases(Size::Large) as u64 / 60).max(1) {
        for problem in hard::puzzles(seed.wrapping_add(k)) {
            agree(&problem);
            unsolvable += usize::from(problem.known == Known::Unsolvable);
        }
    }
    assert!(unsolvable > 0, "every puzzle has a solution");
}

/// At the size that the tables have room for, bit for bit too.
#[test]
fn puzzles_at_full_size() {
    let mut problems = hard::large_random_puzzles(seed("matching, full size"));
    problems.extend(hard::large_fixed_puzzles());
    problems.push(hard::hardest_pigeons());
    let mut tally = Tally::new("matching, full size");
    for problem in problems {
        agree(&problem);
        tally.case();
        tally.note("none", problem.known == Known::Unsolvable);
        tally.note("filled", problem.known == Known::Solvable);
    }
    tally.finish(&[("none", 20..=80), ("filled", 20..=80)]);
}

/// With 32 role pairs, which change no answer.
#[test]
fn puzzles_with_role_pairs() {
    for problem in hard::spread_over_roles(seed("matching, role pairs")) {
        assert_eq!(problem.tables.role_pairs().count(), 32, "{}", problem.label);
        agree(&problem);
    }
}

/// The search itself reads questions as the reference's relation does.
#[test]
fn questions_read_by_structure() {
    let seed = seed("matching, questions");
    let (mut yes, mut no) = (0, 0);
    for (size, share) in [(Size::Small, 2), (Size::Medium, 4), (Size::Large, 8)] {
        for k in 0..(cases(size) / share).max(1) {
            let mut random = Random::for_case(seed, k);
            let tables = generate::valid(&mut random, size);
            let ground = reference::relation(&tables, &vec![0; usize::from(tables.variables)]);
            let atoms = reference::atoms::list(&tables);
            let wider = reference::roles::wider_bits(&tables);
            let patterns =
                reference::patterns::Patterns::new(&tables, &atoms, wider, |i, j| ground[i][j]);
            let assignment = generate::assignment(&mut random, &tables);
            let below = reference::relation(&tables, &assignment);
            for (k, (left, right)) in tables.question_pairs().into_iter().enumerate() {
                let holds = patterns.holds(k, &assignment);
                assert_eq!(holds, below[left][right], "question {} of\n{}", k, tables);
                yes += usize::from(holds);
                no += usize::from(!holds);
            }
        }
    }
    assert!((yes > 0 && no > 0) || !full_run(), "{} yes, {} no", yes, no);
}
