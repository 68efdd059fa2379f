//! hc_match_within: the first solution within settings bit for bit, or none; what 02 promises of
//! settings that permit all; every refusal.

use hermitcasket_tests::capi::{self, Answer};
use hermitcasket_tests::compare;
use hermitcasket_tests::faults::{base, every_set, settings_faults, Fault};
use hermitcasket_tests::generate;
use hermitcasket_tests::hard::{self, Known};
use hermitcasket_tests::limits::*;
use hermitcasket_tests::planted::{self, Shape};
use hermitcasket_tests::random::{cases, full_run, seed, Random, Size};
use hermitcasket_tests::reference::{self, atoms, matching, Refusal};
use hermitcasket_tests::settings::Settings;
use hermitcasket_tests::settings_families::{self, Within};
use hermitcasket_tests::tables::{Case, Tables, TablesRef};
use hermitcasket_tests::tally::Tally;

const NONE: Refusal = Refusal { number: 10, place: 0 };
const NO_FILLING: Answer = Answer { number: 10, place: 0, value: 0 };

fn case_of(tables: &Tables, settings: &Settings) -> Case {
    let mut case = Case::new(tables.clone(), &[]);
    case.settings = settings.clone();
    case
}

/// The answer, held against the reference with all that was lent.
fn ask(tables: &Tables, permitted: &[u64], largest: &[u16]) -> Answer {
    compare::find_within(&case_of(tables, &Settings::new(permitted, largest)))
}

/// The answer written here by hand, from the library and from the reference.
fn expect(first: Option<&[u64]>, tables: &Tables, permitted: &[u64], largest: &[u16]) {
    let case = case_of(tables, &Settings::new(permitted, largest));
    let wanted = first.map(<[u64]>::to_vec).ok_or(NONE);
    compare::find_within_expecting(&case, wanted.clone());
    let found = reference::find_within(tables, &case.settings, case.match_room);
    assert_eq!(found, wanted, "for\n{}", case);
}

/// The library's first assignment within accepted settings, or none.
fn found(tables: &Tables, settings: &Settings) -> Option<Vec<u64>> {
    let mut out = vec![0; usize::from(tables.variables)];
    let Settings { permitted, largest } = settings;
    let answer = capi::find_within(tables.lend(), permitted, largest, &mut out);
    let none = answer == Answer::refused(10, 0);
    assert!(none || answer == Answer::done(0), "{:?} for\n{}", answer, case_of(tables, settings));
    (!none).then_some(out)
}

/// The kinds of answer that a tally counts.
fn note(tally: &mut Tally, first: Option<&Vec<u64>>) {
    let empty = |first: &Vec<u64>| first.iter().all(|&choice| choice == 0);
    tally.case();
    tally.note("none", first.is_none());
    tally.note("empty", first.map_or(false, empty));
    tally.note("chosen", first.map_or(false, |first| !empty(first)));
}

/// 02's words: one blank is for flours only, one for two ingredients at most. 0 wheat and 1 rye are
/// flours, 2 honey butter, 3 sugar, 4 butter; 5 binding, 6 sweet, 7 rich.
#[test]
fn flours_only_and_two_at_most() {
    let mut rows: Vec<[u16; 3]> = (0..8).map(|name| [1, name, 0]).collect();
    rows.extend([[4, 0, 0], [4, 1, 0]]);
    let inclusions = [[0, 5], [1, 5], [4, 5], [2, 6], [2, 7], [3, 6], [4, 7]];
    let card = Tables::new(&rows, &inclusions, &[[8, 5], [9, 6], [9, 7]], 2);
    let (flours, ingredients, all) = (0b11, 0b11111, 0xff);
    // what binds, and what is sweet and rich, are parts themselves, and late ones come first
    expect(Some(&[32, 192]), &card, &[all, all], &[64, 64]);
    expect(Some(&[2, 192]), &card, &[flours, all], &[64, 64]);
    expect(Some(&[2, 24]), &card, &[flours, ingredients], &[64, 64]);
    expect(Some(&[2, 24]), &card, &[flours, ingredients], &[1, 2]);
    // one ingredient: only honey butter is both
    expect(Some(&[2, 4]), &card, &[flours, ingredients], &[1, 1]);
    expect(Some(&[1, 4]), &card, &[1, ingredients], &[1, 1]);
    expect(None, &card, &[flours, 0b11011], &[1, 1]);
    expect(None, &card, &[flours, ingredients], &[0, 1]);
    expect(None, &card, &[flours, ingredients], &[1, 0]);
    expect(None, &card, &[0, ingredients], &[64, 64]);
}

/// 01's sample: position 2 fills its blank, or else position 1; position 0 never does.
#[test]
fn sample_card() {
    let rows = [[1, 5, 0], [1, 7, 0], [2, 1, 0], [1, 9, 0], [4, 0, 0], [3, 1, 4]];
    let card = Tables::new(&rows, &[[2, 3]], &[[5, 3], [2, 4]], 1);
    for permitted in 0..8 {
        for largest in 0..5 {
            let first = match permitted {
                _ if largest == 0 => None,
                4..=7 => Some(&[4][..]),
                2 | 3 => Some(&[2][..]),
                _ => None,
            };
            expect(first, &card, &[permitted], &[largest]);
        }
    }
    // nothing asked: nothing is taken, whatever is barred
    let idle = Tables { questions: Vec::new(), ..card };
    for (permitted, largest) in [(0, 0), (1, 0), (0, 64), (1, 64)] {
        expect(Some(&[0]), &idle, &[permitted], &[largest]);
    }
}

/// A blank on the right of a question: fewer parts only help, and what the other question wants of
/// it is barred or too much.
#[test]
fn blanks_on_the_right() {
    // 0 is below 1 and 2; the blank is above 0 and below 1 and 2
    let rows = [[1, 1, 0], [1, 2, 0], [1, 3, 0], [4, 0, 0]];
    let card = Tables::new(&rows, &[[0, 1], [0, 2]], &[[0, 3], [3, 1], [3, 2]], 1);
    expect(Some(&[6]), &card, &[7], &[64]);
    expect(Some(&[6]), &card, &[6], &[2]);
    expect(Some(&[1]), &card, &[7], &[1]);
    expect(Some(&[1]), &card, &[3], &[64]);
    expect(None, &card, &[6], &[1]);
    expect(None, &card, &[7], &[0]);
    expect(None, &card, &[4], &[64]);
}

/// Which of two blanks brings a part goes by what each may take.
#[test]
fn several_blanks() {
    let rows = [[1, 5, 0], [1, 6, 0], [4, 0, 0], [4, 1, 0], [3, 2, 3]];
    let card = Tables::new(&rows, &[[0, 0], [1, 1]], &[[4, 0], [4, 1]], 2);
    expect(Some(&[0, 3]), &card, &[3, 3], &[64, 64]);
    expect(Some(&[2, 1]), &card, &[3, 3], &[64, 1]);
    expect(Some(&[1, 2]), &card, &[1, 3], &[64, 1]);
    expect(Some(&[2, 1]), &card, &[3, 1], &[64, 64]);
    expect(Some(&[2, 1]), &card, &[2, 3], &[1, 1]);
    expect(Some(&[3, 0]), &card, &[3, 3], &[2, 0]);
    expect(None, &card, &[3, 3], &[1, 0]);
    expect(None, &card, &[1, 1], &[2, 2]);
}

/// A tiny card and all its solutions. Mostly there are two or more, so that settings decide.
fn tiny_with_solutions(random: &mut Random) -> (Tables, Vec<Vec<u64>>) {
    loop {
        let tables = generate::tiny(random, 6);
        let solutions = matching::solutions(&tables);
        if solutions.len() > 1 || random.percent(5) {
            return (tables, solutions);
        }
    }
}

/// Every permitted set and every count up to the number of atoms, for each variable.
fn every_setting(tables: &Tables) -> Vec<Settings> {
    let atoms = atoms::list(tables).len();
    let mut all = vec![Settings::default()];
    for _ in 0..tables.variables {
        let mut longer = Vec::new();
        for (settings, permitted) in all.iter().flat_map(|s| (0..1 << atoms).map(move |p| (s, p))) {
            for largest in 0..=atoms as u16 {
                let mut settings = settings.clone();
                settings.permitted.push(permitted);
                settings.largest.push(largest);
                longer.push(settings);
            }
        }
        all = longer;
    }
    all
}

/// Against every assignment in order.
#[test]
fn every_setting_of_tiny_cards() {
    let seed = seed("within, every setting");
    let mut tally = Tally::new("within, every setting");
    for k in 0..cases(Size::Large) {
        let (tables, solutions) = tiny_with_solutions(&mut Random::for_case(seed, k));
        let mut case = case_of(&tables, &Settings::default());
        for settings in every_setting(&tables) {
            let first = solutions.iter().find(|solution| matching::heeds(&settings, solution));
            case.settings = settings;
            compare::find_within_expecting(&case, first.cloned().ok_or(NONE));
            note(&mut tally, first);
            tally.note("first of all barred", first.is_some() && first != solutions.first());
        }
    }
    tally.finish(&[
        ("none", 20..=80),
        ("empty", 2..=60),
        ("chosen", 5..=60),
        ("first of all barred", 2..=60),
    ]);
}

/// Random settings of somewhat larger cards; the search of the reference too, which is what larger
/// ones are held against.
#[test]
fn tiny_cards_against_brute_force() {
    let seed = seed("within, brute force");
    let mut tally = Tally::new("within, brute force");
    for k in 0..cases(Size::Small) / 8 {
        let mut random = Random::for_case(seed, k);
        let tables = generate::tiny(&mut random, 10);
        let settings = generate::settings(&mut random, &tables);
        let mut case = case_of(&tables, &settings);
        case.match_room += random.below(3);
        let expected = matching::brute_force_within(&tables, &settings);
        let searched = matching::first_solution_within(&tables, &settings);
        assert_eq!(searched, expected, "the search, for\n{}", case);
        compare::find_within_expecting(&case, expected.clone().ok_or(NONE));
        note(&mut tally, expected.as_ref());
    }
    tally.finish(&[("none", 30..=90), ("empty", 2..=60), ("chosen", 5..=60)]);
}

/// Random cases, damaged or not, against the search.
#[test]
fn random_cases_agree() {
    let seed = seed("within");
    let mut seen = [0; 20];
    let mut tally = Tally::new("within");
    for (size, share) in [(Size::Small, 4), (Size::Medium, 4), (Size::Large, 6)] {
        for k in 0..(cases(size) / share).max(1) {
            let case = generate::within_case(&mut Random::for_case(seed, k), size);
            let answer = compare::find_within(&case);
            seen[usize::from(answer.number)] += 1;
            tally.case();
            let asked = !case.tables.questions.is_empty();
            tally.note("filled, with questions", answer.number == 0 && asked);
            tally.note("none", answer.number == 10);
            tally.note("settings refused", answer.number == 19);
            tally.note("refused otherwise", ![0, 10, 19].contains(&answer.number));
        }
    }
    let all_seen = (0..11).filter(|&n| n != 9).chain([16, 19]).all(|n| seen[n] > 0);
    assert!(all_seen || !full_run(), "answers 0 to 10, 16 and 19: {:?}", seen);
    tally.finish(&[
        ("filled, with questions", 10..=60),
        ("none", 10..=60),
        ("settings refused", 3..=30),
        ("refused otherwise", 20..=60),
    ]);
}

/// With all atoms and 64 everywhere, or any count that is no bound, the answer is that of hc_match,
/// bit for bit.
fn same_as_match(tables: &Tables, tally: &mut Tally) {
    let mut out = vec![7; usize::from(tables.variables) + 1];
    let answer = capi::find(tables.lend(), &mut out);
    let atoms = atoms::list(tables).len() as u16;
    for largest in [MAX_ATOMS as u16, atoms, (atoms + 1).min(64)] {
        let mut within = vec![7; out.len()];
        let Settings { permitted, largest } = Settings::counted(tables, largest);
        let now = capi::find_within(tables.lend(), &permitted, &largest, &mut within);
        assert_eq!((now, &within), (answer, &out), "{:?} for\n{}", largest, tables);
    }
    out.pop();
    note(tally, (answer.number == 0).then_some(&out));
}

#[test]
fn open_settings_change_nothing() {
    let seed = seed("within, open");
    let mut tally = Tally::new("within, open");
    for (size, share) in [(Size::Small, 4), (Size::Medium, 2), (Size::Large, 2)] {
        for k in 0..(cases(size) / share).max(1) {
            let mut random = Random::for_case(seed, k);
            let mut tables = generate::valid(&mut random, size);
            tables.questions.truncate(2 * random.between(1, 8));
            same_as_match(&tables, &mut tally);
        }
    }
    tally.finish(&[("none", 20..=80), ("empty", 10..=70), ("chosen", 5..=60)]);
}

#[test]
fn open_settings_change_no_search() {
    let seed = seed("within, open searches");
    let mut tally = Tally::new("within, open searches");
    for shape in [planted::MEDIUM, planted::FULL[0], planted::FULL[1], planted::FULL[2]] {
        for k in 0..(cases(Size::Large) / 15).max(1) {
            same_as_match(&planted::problem(&mut Random::for_case(seed, k), shape), &mut tally);
        }
    }
    let problems = [
        hard::puzzles(seed),
        hard::with_harmless(60),
        hard::at_the_limits(seed),
        hard::large_fixed_puzzles(),
        hard::spread_over_roles(seed),
    ];
    problems.iter().flatten().for_each(|problem| same_as_match(&problem.tables, &mut tally));
    tally.finish(&[("none", 20..=80), ("chosen", 20..=80)]);
}

/// The answer agrees with the search and with what is known of the family.
fn agree(problem: &Within, tally: &mut Tally) {
    let case = problem.case();
    let first = matching::first_solution_within(&case.tables, &case.settings);
    match &problem.known {
        Known::First(known) => assert_eq!(first.as_ref(), Some(known), "{}", problem.label),
        Known::Solvable => assert!(first.is_some(), "{}", problem.label),
        Known::Unsolvable => assert_eq!(first, None, "{}", problem.label),
        Known::Open => {}
    }
    if let Some(first) = &first {
        assert!(matching::heeds(&case.settings, first), "{}", problem.label);
        assert!(matching::solves(&case.tables, first), "{}", problem.label);
    }
    note(tally, first.as_ref());
    compare::find_within_expecting(&case, first.ok_or(NONE));
}

#[test]
fn families() {
    let seed = seed("within, families");
    let mut tally = Tally::new("within, families");
    for k in 0..(cases(Size::Large) as u64 / 30).max(1) {
        let problems = settings_families::small(seed.wrapping_add(k));
        problems.iter().for_each(|problem| agree(problem, &mut tally));
    }
    tally.finish(&[("none", 30..=70), ("chosen", 30..=70)]);
}

#[test]
fn families_at_full_size() {
    let seed = seed("within, full size");
    let mut tally = Tally::new("within, full size");
    for k in 0..(cases(Size::Large) as u64 / 100).max(1) {
        let problems = settings_families::large(seed.wrapping_add(k));
        problems.iter().for_each(|problem| agree(problem, &mut tally));
    }
    settings_families::hardest().iter().for_each(|problem| agree(problem, &mut tally));
    tally.finish(&[("none", 30..=80), ("chosen", 20..=70)]);
}

/// Four variables, goals of one and of several of them, and two atoms each: here what a variable
/// still needs often goes by what the others take.
#[test]
fn searches_with_small_counts() {
    let seed = seed("within, small counts");
    let mut tally = Tally::new("within, small counts");
    let shape = Shape { names: 9, wides: 8, width: 6, joint_goals: 8, ways: 3, ..planted::MEDIUM };
    for k in 0..(cases(Size::Medium) / 4).max(1) {
        let tables = planted::problem(&mut Random::for_case(seed, k), shape.planted());
        let (label, settings) = (format!("case {}", k), Settings::counted(&tables, 2));
        agree(&Within { label, tables, settings, known: Known::Open }, &mut tally);
    }
    tally.finish(&[("none", 20..=80), ("chosen", 20..=80)]);
}

/// 64 atoms and 8 variables at once, with random settings: questions that each have a solution of
/// their own, and problems that need a search.
#[test]
fn at_the_limits() {
    let seed = seed("within, limits");
    let mut tally = Tally::new("within, limits");
    for k in 0..(cases(Size::Large) / 3).max(1) {
        let mut random = Random::for_case(seed, k);
        let mut tables = if random.percent(50) {
            let tables = generate::full(&mut random);
            let count = random.between(1, 5);
            planted::ask_open(&mut random, tables, count)
        } else {
            let problem = planted::problem(&mut random, planted::FULL[2].planted());
            planted::fill_up(&mut random, problem)
        };
        if random.percent(50) {
            let count = random.between(1, MAX_ROLE_PAIRS);
            generate::add_role_pairs(&mut random, count, &mut tables);
        }
        assert_eq!((atoms::list(&tables).len(), tables.variables), (64, 8));
        let mut settings = generate::settings(&mut random, &tables);
        // few variables that may take nothing, or there would hardly be a solution
        for k in 0..8 {
            if random.percent(70) {
                settings.permitted[k] |= random.number() | random.number();
                settings.largest[k] = settings.largest[k].max(random.between(2, 6) as u16);
            }
        }
        let (label, known) = (format!("case {}", k), Known::Open);
        agree(&Within { label, tables, settings, known }, &mut tally);
    }
    tally.finish(&[("none", 20..=80), ("chosen", 20..=80)]);
}

/// The bit of the highest position is a part's like any other.
#[test]
fn the_last_of_64_parts() {
    let mut rows: Vec<[u16; 3]> = (0..64).map(|name| [1, name, 0]).collect();
    rows.push([4, 0, 0]);
    let inclusions: Vec<[u16; 2]> = (0..64).map(|id| [id, id]).collect();
    for part in [0, 1, 31, 32, 62, 63] {
        let card = Tables::new(&rows, &inclusions, &[[64, part]], 1);
        let alone = 1 << part;
        expect(Some(&[alone]), &card, &[u64::MAX], &[64]);
        expect(Some(&[alone]), &card, &[alone], &[1]);
        expect(None, &card, &[!alone], &[64]);
        expect(None, &card, &[u64::MAX], &[0]);
    }
    // all 64 are wanted: 64 are enough, 63 are not
    rows.extend((0..63).map(|id| [3, if id == 0 { 0 } else { 64 + id }, id + 1]));
    let card = Tables::new(&rows, &inclusions, &[[64, 127]], 1);
    expect(Some(&[u64::MAX]), &card, &[u64::MAX], &[64]);
    expect(None, &card, &[u64::MAX], &[63]);
    expect(None, &card, &[u64::MAX >> 1], &[64]);
}

/// Two variables and three atoms.
fn two_blanks() -> Tables {
    let rows = [[1, 5, 0], [1, 6, 0], [1, 7, 0], [4, 0, 0], [4, 1, 0]];
    Tables::new(&rows, &[[0, 1], [2, 2]], &[[3, 1], [4, 2]], 2)
}

/// 19 with the number of variables for either list, tested before what the lists say.
#[test]
fn lists_of_another_length() {
    let card = two_blanks();
    let wrong = Answer::refused(19, 2);
    for of_permitted in 0..12 {
        for of_largest in 0..12 {
            for (permitted, largest) in [(7, 64), (u64::MAX, 65), (8, 64), (7, 65535)] {
                let lists = (vec![permitted; of_permitted], vec![largest; of_largest]);
                let answer = ask(&card, &lists.0, &lists.1);
                let faulty = permitted > 7 || largest > 64;
                let due = match (of_permitted, of_largest) {
                    (2, 2) if faulty => Answer::refused(19, 0),
                    (2, 2) => Answer::done(0),
                    _ => wrong,
                };
                assert_eq!(answer, due, "{:?}", lists);
            }
        }
    }
    // past what sixteen bits count
    assert_eq!(ask(&card, &vec![0; 65538], &[64; 2]), wrong);
    assert_eq!(ask(&card, &[7; 2], &vec![64; 65538]), wrong);
}

/// The lowest blank at fault, whichever of the two faults it has.
#[test]
fn the_lowest_blank_at_fault() {
    let card = two_blanks();
    let refused = |place| Answer::refused(19, place);
    for (permitted, largest, due) in [
        ([7, 7], [64, 64], Answer::done(0)),
        ([7, 7], [64, 65], refused(1)),
        ([7, 7], [65, 64], refused(0)),
        ([7, 7], [65535, 65535], refused(0)),
        ([7, 8], [64, 64], refused(1)),
        ([8, 7], [64, 64], refused(0)),
        ([15, 7], [64, 65], refused(0)),
        ([7, 15], [65, 64], refused(0)),
        ([7, 15], [64, 65], refused(1)),
        ([7, 1 << 63], [0, 0], refused(1)),
        ([7, 7], [64, 256], refused(1)),
        ([7, 7], [64, 64 + 256], refused(1)),
    ] {
        assert_eq!(ask(&card, &permitted, &largest), due, "{:?} {:?}", permitted, largest);
    }
    // each bit past the three atoms, and each count over 64
    for position in 0..64 {
        let due = if position < 3 { Answer::done(0) } else { refused(1) };
        assert_eq!(ask(&card, &[7, 4 | 1 << position], &[64, 64]), due, "{}", position);
    }
    for largest in 0..=200 {
        let due = match largest {
            0 => Answer::refused(10, 0),
            1..=64 => Answer::done(0),
            _ => refused(1),
        };
        assert_eq!(ask(&card, &[7, 7], &[64, largest]), due, "{}", largest);
    }
}

/// A blank in no question has settings too, and stays empty.
#[test]
fn idle_blanks() {
    let rows = [[1, 5, 0], [4, 3, 0]];
    let card = Tables::new(&rows, &[], &[[1, 0]], 8);
    let mut first = [0; 8];
    first[3] = 1;
    expect(Some(&first), &card, &[1; 8], &[64; 8]);
    let alone = |k: usize| (0..8).map(|j| u64::from(j == k)).collect::<Vec<_>>();
    expect(Some(&first), &card, &alone(3), &[0, 0, 0, 1, 0, 0, 0, 0]);
    for k in (0..8).filter(|&k| k != 3) {
        expect(None, &card, &alone(k), &[64; 8]);
        let (mut permitted, mut largest) = ([1; 8], [64; 8]);
        permitted[k] = 2;
        assert_eq!(ask(&card, &permitted, &largest), Answer::refused(19, k as u64));
        permitted[k] = 1;
        largest[k] = 65;
        assert_eq!(ask(&card, &permitted, &largest), Answer::refused(19, k as u64));
    }
}

/// No blanks: no settings either, and questions are only asked.
#[test]
fn no_blanks() {
    let rows = [[1, 5, 0], [1, 6, 0]];
    let holds = Tables::new(&rows, &[[0, 1]], &[[0, 1]], 0);
    let fails = Tables::new(&rows, &[[0, 1]], &[[1, 0]], 0);
    for (tables, due) in
        [(Tables::default(), Answer::done(0)), (holds, Answer::done(0)), (fails, NO_FILLING)]
    {
        assert_eq!(ask(&tables, &[], &[]), due);
        assert_eq!(ask(&tables, &[0], &[]), Answer::refused(19, 0));
        assert_eq!(ask(&tables, &[], &[0]), Answer::refused(19, 0));
        assert_eq!(ask(&tables, &[0], &[0]), Answer::refused(19, 0));
    }
    // blanks, and no parts that they could take
    let bare = Tables::new(&[[4, 0, 0], [0, 0, 0]], &[], &[[0, 1], [1, 0]], 2);
    assert_eq!(ask(&bare, &[0, 0], &[64, 0]), Answer::done(0));
    assert_eq!(ask(&bare, &[0, 1], &[64, 0]), Answer::refused(19, 1));
    assert_eq!(ask(&bare, &[1, 1], &[64, 0]), Answer::refused(19, 0));
}

/// 8 with the number of variables, after 19 and before 10; longer buffers keep their rest.
#[test]
fn short_buffers() {
    let card = two_blanks();
    for (largest, wanted) in [(64, Answer::done(0)), (0, NO_FILLING)] {
        let mut case = case_of(&card, &Settings::new(&[7, 7], &[largest; 2]));
        for room in [2, 3, 8, 100] {
            case.match_room = room;
            assert_eq!(compare::find_within(&case), wanted, "{} numbers", room);
        }
        for room in [0, 1] {
            case.match_room = room;
            assert_eq!(compare::find_within(&case), Answer::refused(8, 2), "{} numbers", room);
            case.settings.largest[1] = 65;
            assert_eq!(compare::find_within(&case), Answer::refused(19, 1));
            case.settings.largest[1] = largest;
        }
    }
}

/// Every set of faults at once: 1 to 6, 16, 7, then 19 by its places, then 8. No assignment and no
/// pair is asked for.
#[test]
fn every_set_of_faults() {
    for (mut case, chosen) in every_set(&settings_faults()) {
        case.pair = (999, 999);
        case.assignment = vec![u64::MAX; 9];
        let wanted = match chosen.first() {
            None => Answer::done(0),
            Some(Fault::ShortBuffer) => Answer::refused(8, 2),
            Some(fault) => Answer::refused(fault.refusal().0, fault.refusal().1),
        };
        assert_eq!(compare::find_within(&case), wanted, "{:?} in\n{}", chosen, case);
    }
}

/// 10 comes last: the same with a question that only barred parts solve.
#[test]
fn every_fault_before_none() {
    for fault in settings_faults() {
        let mut case = base();
        case.tables.questions.extend([2, 3]);
        case.settings.permitted = vec![2, 2];
        assert_eq!(compare::find_within(&case), NO_FILLING);
        fault.put_into(&mut case);
        let number = compare::find_within(&case).number;
        assert_eq!(number, fault.refusal().0, "{:?} in\n{}", fault, case);
    }
}

/// Two cards and settings in turn, with refused calls and hc_match in between: each call gives what
/// it gives alone.
#[test]
fn answers_do_not_stick() {
    let seed = seed("within, in a row");
    let mut tally = Tally::new("within, in a row");
    for k in 0..cases(Size::Medium) / 4 {
        let mut random = Random::for_case(seed, k);
        let (one, two) = (generate::tiny(&mut random, 40), generate::tiny(&mut random, 40));
        let settings = [&one, &one, &two].map(|tables| generate::settings(&mut random, tables));
        let mut cases: Vec<Case> =
            [&one, &one, &two].iter().zip(&settings).map(|(t, s)| case_of(t, s)).collect();
        cases.push(case_of(&one, &Settings::open(&one)));
        let alone: Vec<_> = cases
            .iter()
            .map(|case| reference::find_within(&case.tables, &case.settings, case.match_room))
            .collect();
        let mut refused = cases[0].clone();
        refused.settings.largest.push(1);
        for _ in 0..2 {
            for (case, expected) in cases.iter().zip(&alone) {
                compare::find_within_expecting(case, expected.clone());
                assert_eq!(compare::find_within(&refused).number, 19);
                compare::find(case);
            }
        }
        tally.case();
        tally.note("several answers", alone[0] != alone[1] || alone[0] != alone[3]);
    }
    tally.finish(&[("several answers", 10..=100)]);
}

/// The order of fillings: where two differ first, the one that leaves the part out is earlier.
fn earlier(one: &[u64], other: &[u64]) -> bool {
    let keys = |choices: &[u64]| choices.iter().map(|c| c.reverse_bits()).collect::<Vec<_>>();
    keys(one) < keys(other)
}

/// Settings that bar one part of the filling, or count one less than it takes of a blank: the next
/// answer is none or a later filling, which heeds them, until there is none. Of the library alone.
fn bar_one_by_one(tables: &Tables, random: &mut Random, tally: &mut Tally) {
    let mut settings = Settings::open(tables);
    let mut last = found(tables, &settings);
    while let Some(filling) = last {
        let taken: Vec<usize> = (0..filling.len()).filter(|&k| filling[k] != 0).collect();
        if taken.is_empty() {
            return;
        }
        let k = *random.pick(&taken);
        if random.percent(70) {
            let choice = filling[k];
            let bits: Vec<u64> = (0..64).map(|p| 1 << p).filter(|bit| choice & bit != 0).collect();
            settings.permitted[k] &= !random.pick(&bits);
        } else {
            settings.largest[k] = filling[k].count_ones() as u16 - 1;
        }
        last = found(tables, &settings);
        if let Some(next) = &last {
            let case = case_of(tables, &settings);
            assert!(matching::heeds(&settings, next), "{:?} for\n{}", next, case);
            assert!(matching::solves(tables, next), "{:?} for\n{}", next, case);
            assert!(earlier(&filling, next), "{:?} after {:?} for\n{}", next, filling, case);
            // within settings that it heeds, the first filling stays the first
            let mut tight = settings.clone();
            tight.permitted.clone_from(next);
            assert_eq!(found(tables, &tight).as_ref(), Some(next), "for\n{}", case);
        }
        tally.case();
        tally.note("another filling", last.is_some());
        tally.note("none", last.is_none());
    }
}

#[test]
fn a_barred_part_is_never_taken() {
    let seed = seed("within, barred");
    let mut tally = Tally::new("within, barred");
    for (size, share) in [(Size::Small, 8), (Size::Medium, 8), (Size::Large, 8)] {
        for k in 0..(cases(size) / share).max(1) {
            let mut random = Random::for_case(seed, k);
            let mut tables = generate::valid(&mut random, size);
            tables.questions.truncate(2 * random.between(1, 4));
            bar_one_by_one(&tables, &mut random, &mut tally);
        }
    }
    for k in 0..(cases(Size::Large) / 20).max(1) {
        let mut random = Random::for_case(seed, k);
        let tables = planted::problem(&mut random, planted::MEDIUM.planted());
        bar_one_by_one(&tables, &mut random, &mut tally);
    }
    tally.finish(&[("another filling", 20..=90), ("none", 5..=80)]);
}

/// Tables, permitted parts and counts may be the same numbers in memory.
#[test]
fn inputs_that_overlap() {
    let numbers = [1, 0, 1, 0];
    let rows = [1, 5, 0, 4, 0, 0];
    let tables = TablesRef {
        concepts: &rows,
        inclusions: &[],
        questions: &numbers[..2],
        roles: &numbers[1..3],
        variables: 1,
    };
    let mut out = [7; 2];
    let answer = capi::find_within(tables, &[1], &numbers[2..3], &mut out);
    assert_eq!((answer, out), (Answer::done(0), [1, 7]));
    let answer = capi::find_within(tables, &[1], &numbers[3..], &mut out);
    assert_eq!((answer, out), (NO_FILLING, [1, 7]));
    assert_eq!((numbers, rows), ([1, 0, 1, 0], [1, 5, 0, 4, 0, 0]));
}
