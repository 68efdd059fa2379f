//! hc_match_group: the first solution of one question's group bit for bit, or none; the groups' put
//! together are the whole's; every refusal.

use hermitcasket_tests::capi::{self, Answer};
use hermitcasket_tests::compare;
use hermitcasket_tests::faults::{base, every_set, group_faults, Fault};
use hermitcasket_tests::generate;
use hermitcasket_tests::hard::{self, Hard, Known};
use hermitcasket_tests::random::{cases, full_run, seed, Random, Size};
use hermitcasket_tests::reference::{self, atoms, groups, matching, Refusal};
use hermitcasket_tests::settings::Settings;
use hermitcasket_tests::settings_families::{self, Within};
use hermitcasket_tests::tables::{Case, Tables, TablesRef};
use hermitcasket_tests::tally::Tally;

const NONE: Refusal = Refusal { number: 10, place: 0 };

fn case_of(tables: &Tables, settings: &Settings, question: u16) -> Case {
    let mut case = Case::new(tables.clone(), &[]);
    case.settings = settings.clone();
    case.question = question;
    case
}

/// The answer written here by hand, from the library and from the reference.
fn expect(first: Option<&[u64]>, tables: &Tables, settings: &Settings, question: u16) {
    let case = case_of(tables, settings, question);
    let wanted = first.map(<[u64]>::to_vec).ok_or(NONE);
    compare::find_group_expecting(&case, wanted.clone());
    let found = reference::find_group(tables, settings, question, case.match_room);
    assert_eq!(found, wanted, "for\n{}", case);
}

/// The library's first assignment of a group, or none.
fn found(tables: &Tables, settings: &Settings, question: usize) -> Option<Vec<u64>> {
    let mut out = vec![u64::MAX; usize::from(tables.variables)];
    let Settings { permitted, largest } = settings;
    let answer = capi::find_group(tables.lend(), permitted, largest, question as u16, &mut out);
    let none = answer == Answer::refused(10, 0);
    assert!(
        none || answer == Answer::done(0),
        "{:?} for\n{}",
        answer,
        case_of(tables, settings, question as u16)
    );
    (!none).then_some(out)
}

/// The library's first assignment of the whole, or none.
fn found_whole(tables: &Tables, settings: &Settings) -> Option<Vec<u64>> {
    let mut out = vec![0; usize::from(tables.variables)];
    let answer =
        capi::find_within(tables.lend(), &settings.permitted, &settings.largest, &mut out);
    (answer == Answer::done(0)).then_some(out)
}

/// 02's words, of the library alone: what is found of every question's group, put together, is the
/// filling of the whole, which has none exactly when a group has none; all questions of a group have
/// one answer; blanks outside stay empty.
fn together(tables: &Tables, settings: &Settings, tally: &mut Tally) {
    let sets = groups::blank_sets(tables);
    let mut whole = Some(vec![0; usize::from(tables.variables)]);
    let all = groups::all(tables);
    for group in &all {
        let first = found(tables, settings, group[0]);
        for &question in &group[1..] {
            assert_eq!(found(tables, settings, question), first, "{}\n{}", settings, tables);
        }
        let held = group.iter().fold(0, |held, &question| held | sets[question]);
        for (blank, choice) in first.iter().flatten().enumerate() {
            assert!(held >> blank & 1 == 1 || *choice == 0, "{}\n{}", settings, tables);
        }
        whole = whole.zip(first).map(|(whole, first)| {
            whole.iter().zip(&first).map(|(choice, more)| choice | more).collect()
        });
    }
    assert_eq!(found_whole(tables, settings), whole, "{}\n{}", settings, tables);
    tally.case();
    tally.note("several groups", all.len() > 1);
    tally.note("groups without blanks", all.iter().any(|group| sets[group[0]] == 0));
    tally.note("several questions in one", all.iter().any(|group| group.len() > 1));
    tally.note("filled", whole.is_some());
    let filled = |group: &&Vec<usize>| found(tables, settings, group[0]).is_some();
    let filled = all.iter().filter(filled).count();
    tally.note("none, and some group filled", whole.is_none() && filled > 0);
}

/// Names 0 to 5 and blanks 0 to 3 from id 6 on; 10 is blanks 0 and 1, 11 is blanks 1 and 2.
fn four_blanks(questions: &[[u16; 2]]) -> Tables {
    let mut rows: Vec<[u16; 3]> = (0..6).map(|name| [1, name, 0]).collect();
    rows.extend((0..4).map(|blank| [4, blank, 0]));
    rows.extend([[3, 6, 7], [3, 7, 8]]);
    Tables::new(&rows, &[[0, 1], [2, 3], [4, 5]], questions, 4)
}

/// A question by itself, two that share a blank, two over a third, and those without blanks.
#[test]
fn cards_that_share_no_blank() {
    let open = |card: &Tables| Settings::open(card);
    // 0: blank 0; 1: blank 3; 2: none; 3: blank 3; 4: none
    let card = four_blanks(&[[6, 1], [9, 3], [0, 1], [9, 5], [2, 3]]);
    let settings = open(&card);
    expect(Some(&[2, 0, 0, 0]), &card, &settings, 0);
    expect(Some(&[0, 0, 0, 40]), &card, &settings, 1);
    expect(Some(&[0, 0, 0, 40]), &card, &settings, 3);
    expect(Some(&[0; 4]), &card, &settings, 2);
    expect(Some(&[0; 4]), &card, &settings, 4);
    // one that fails without blanks: its group has none, the others are as they were
    let card = four_blanks(&[[6, 1], [9, 3], [0, 1], [9, 5], [3, 2]]);
    expect(None, &card, &settings, 2);
    expect(None, &card, &settings, 4);
    expect(Some(&[2, 0, 0, 0]), &card, &settings, 0);
    expect(Some(&[0, 0, 0, 40]), &card, &settings, 3);
    // blanks 0 and 2 meet in no question, but 0 meets 1 and 1 meets 2
    let card = four_blanks(&[[10, 1], [9, 3], [11, 5]]);
    let settings = open(&card);
    expect(Some(&[0, 2, 32, 0]), &card, &settings, 0);
    expect(Some(&[0, 2, 32, 0]), &card, &settings, 2);
    expect(Some(&[0, 0, 0, 8]), &card, &settings, 1);
}

/// The parts are the whole problem's: what only another group's question brings has a position, and
/// may be permitted where it serves.
#[test]
fn parts_of_the_whole() {
    // no inclusions, so that the parts are the names on right sides: 2 and 3
    let rows = [[1, 7, 0], [1, 8, 0], [1, 9, 0], [1, 6, 0], [4, 0, 0], [4, 1, 0]];
    let card = Tables::new(&rows, &[], &[[4, 3], [5, 2]], 2);
    let settings = Settings::open(&card);
    assert_eq!(atoms::list(&card), [2, 3]);
    expect(Some(&[2, 0]), &card, &settings, 0);
    expect(Some(&[0, 1]), &card, &settings, 1);
    // a blank on the right that is asked for parts of another group
    let card = Tables::new(&rows, &[[2, 3]], &[[2, 4], [4, 3], [5, 2]], 2);
    let settings = Settings::open(&card);
    expect(Some(&[2, 0]), &card, &settings, 0);
    expect(Some(&[2, 0]), &card, &settings, 1);
    expect(Some(&[1, 0]), &card, &Settings::new(&[1, 0], &[1, 0]), 0);
}

/// Settings of the group decide; those outside are checked and then without effect.
#[test]
fn settings_apply() {
    let card = four_blanks(&[[10, 1], [10, 3], [9, 5], [9, 1]]);
    let all = 63;
    let settings = |permitted: [u64; 4], largest: [u16; 4]| Settings::new(&permitted, &largest);
    expect(Some(&[0, 10, 0, 0]), &card, &settings([all; 4], [64; 4]), 0);
    expect(Some(&[8, 2, 0, 0]), &card, &settings([all; 4], [1; 4]), 0);
    expect(Some(&[2, 8, 0, 0]), &card, &settings([3, all, 0, 0], [1, 1, 0, 0]), 1);
    expect(Some(&[0, 10, 0, 0]), &card, &settings([0, all, 0, 0], [0, 2, 0, 0]), 1);
    expect(None, &card, &settings([0, all, all, all], [64, 1, 64, 64]), 0);
    expect(Some(&[0, 0, 0, 34]), &card, &settings([0, 0, 0, all], [0, 0, 0, 2]), 2);
    expect(None, &card, &settings([all; 4], [64, 64, 64, 1]), 3);
    expect(Some(&[0, 10, 0, 0]), &card, &settings([all; 4], [64, 64, 64, 1]), 0);
}

/// Blank k meets blank k + 1 in one question each, which stand in every order there is: from each of
/// them all are reached.
#[test]
fn chains_in_any_order() {
    let mut rows: Vec<[u16; 3]> = vec![[1, 0, 0], [1, 1, 0]];
    rows.extend((0..8).map(|blank| [4, blank, 0]));
    rows.extend((2..9).map(|blank| [3, blank, blank + 1]));
    let seed = seed("group, chains");
    for k in 0..cases(Size::Large).max(40) {
        let mut random = Random::for_case(seed, k);
        let mut links: Vec<u16> = (10..17).collect();
        // sometimes the chain is in two
        let cut = random.percent(40).then(|| links.remove(random.below(7)));
        for left in (1..links.len()).rev() {
            links.swap(left, random.below(left + 1));
        }
        let questions: Vec<[u16; 2]> = links.iter().map(|&link| [link, 1]).collect();
        let card = Tables::new(&rows, &[[0, 1]], &questions, 8);
        let settings = Settings::open(&card);
        for (m, &link) in links.iter().enumerate() {
            let group = groups::of(&card, m);
            let side = |link: u16| cut.map_or(true, |cut| link < cut);
            let due: Vec<usize> =
                (0..links.len()).filter(|&n| cut.is_none() || side(links[n]) == side(link)).collect();
            assert_eq!(group, due, "{:?}", links);
            compare::find_group(&case_of(&card, &settings, m as u16));
        }
        together(&card, &settings, &mut Tally::new("group, chains"));
    }
}

/// An easy card beside each hard one: it is filled by itself, and only the hard one has none.
#[test]
fn one_unsolvable_group() {
    let seed = seed("group, unsolvable");
    let mut tally = Tally::new("group, unsolvable");
    let mut rooms = Tally::new("group, room for an easy card");
    let hard = [hard::puzzles(seed), hard::with_harmless(60), hard::at_the_limits(seed)];
    for (tables, known) in hard.iter().flatten().map(|hard| (&hard.tables, &hard.known)) {
        let with_easy = hard::with_easy_card(tables);
        rooms.case();
        rooms.note("left out", with_easy.is_none());
        let (card, easy) = match with_easy {
            Some(with) => with,
            None => continue,
        };
        let settings = Settings::open(&card);
        let mut due = vec![0; usize::from(card.variables)];
        let name = card.concept_count() - 2;
        let position = atoms::list(&card).iter().position(|&id| id == name);
        due[usize::from(tables.variables)] = 1 << position.expect("a part");
        expect(Some(&due), &card, &settings, easy);
        together(&card, &settings, &mut tally);
        if *known == Known::Unsolvable {
            let hard = groups::all(&card).into_iter().filter(|group| group[0] < usize::from(easy));
            let none = hard.filter(|group| found(&card, &settings, group[0]).is_none()).count();
            assert!(none > 0, "for\n{}", card);
        }
    }
    rooms.finish(&[("left out", 0..=50)]);
    tally.finish(&[("several groups", 100..=100), ("none, and some group filled", 20..=90)]);
}

/// A small card, mostly of several groups.
fn grouped(random: &mut Random, most: usize) -> Tables {
    loop {
        let tables = generate::grouped(random, Size::Small);
        if (1..=most).contains(&matching::choices(&tables)) {
            return tables;
        }
    }
}

/// Against every assignment in order, within random settings.
#[test]
fn tiny_cards_against_brute_force() {
    let seed = seed("group, brute force");
    let mut tally = Tally::new("group, brute force");
    for k in 0..cases(Size::Small) / 8 {
        let mut random = Random::for_case(seed, k);
        let tables = grouped(&mut random, 10);
        let mut all = vec![Settings::open(&tables)];
        all.extend((0..3).map(|_| generate::settings(&mut random, &tables)));
        for settings in &all {
            for group in groups::all(&tables) {
                let first = matching::brute_force_among(&tables, settings, &group);
                for &question in &group {
                    let case = case_of(&tables, settings, question as u16);
                    compare::find_group_expecting(&case, first.clone().ok_or(NONE));
                }
                let by_search = matching::first_solution_among(&tables, settings, &group);
                assert_eq!(by_search, first, "{} for\n{}", settings, tables);
                tally.case();
                tally.note("none", first.is_none());
                let empty = |first: &Vec<u64>| first.iter().all(|&choice| choice == 0);
                tally.note("chosen", first.as_ref().map_or(false, |first| !empty(first)));
            }
        }
    }
    tally.finish(&[("none", 10..=80), ("chosen", 5..=70)]);
}

/// The two sentences on random cards of every size, with and without settings.
#[test]
fn groups_put_together() {
    let seed = seed("group, together");
    let mut tally = Tally::new("group, together");
    for (size, share) in [(Size::Small, 4), (Size::Medium, 4), (Size::Large, 4)] {
        for k in 0..(cases(size) / share).max(1) {
            let mut random = Random::for_case(seed, k);
            let tables = generate::grouped(&mut random, size);
            together(&tables, &Settings::open(&tables), &mut tally);
            let settings = generate::settings(&mut random, &tables);
            together(&tables, &settings, &mut tally);
        }
    }
    tally.finish(&[
        ("several groups", 30..=95),
        ("groups without blanks", 30..=95),
        ("several questions in one", 30..=95),
        ("filled", 5..=70),
        ("none, and some group filled", 10..=80),
    ]);
}

/// The same on the families of hard problems and of settings.
#[test]
fn families_put_together() {
    let seed = seed("group, families");
    let mut tally = Tally::new("group, families");
    for Hard { tables, .. } in hard::puzzles(seed).iter().chain(&hard::with_harmless(5)) {
        together(tables, &Settings::open(tables), &mut tally);
    }
    for Within { tables, settings, .. } in &settings_families::small(seed) {
        together(tables, settings, &mut tally);
    }
    tally.finish(&[("filled", 5..=80)]);
}

/// Random cases, damaged or not, against the reference.
#[test]
fn random_cases_agree() {
    let seed = seed("group");
    let mut seen = [0; 20];
    let mut tally = Tally::new("group");
    for (size, share) in [(Size::Small, 2), (Size::Medium, 2), (Size::Large, 2)] {
        for k in 0..(cases(size) / share).max(1) {
            let case = generate::group_case(&mut Random::for_case(seed, k), size);
            let answer = compare::find_group(&case);
            seen[usize::from(answer.number)] += 1;
            tally.case();
            tally.note("filled", answer.number == 0);
            tally.note("none", answer.number == 10);
            tally.note("refused otherwise", ![0, 10].contains(&answer.number));
        }
    }
    let all_seen = (0..11).filter(|&n| n != 9).chain([16, 19]).all(|n| seen[n] > 0);
    assert!(all_seen || !full_run(), "answers 0 to 10, 16 and 19: {:?}", seen);
    tally.finish(&[("filled", 10..=70), ("none", 5..=60), ("refused otherwise", 20..=70)]);
}

/// A place that is no question is 4 at place 0, also where there is none at all, before an id of an
/// inclusion at a later place and after 3.
#[test]
fn places_that_are_no_question() {
    let card = four_blanks(&[[6, 1], [9, 3]]);
    let settings = Settings::open(&card);
    for (question, refused) in [(0, false), (1, false), (2, true), (3, true), (32, true), (65535, true)] {
        let case = case_of(&card, &settings, question);
        let answer = compare::find_group(&case);
        assert_eq!(answer == Answer::refused(4, 0), refused, "{:?} for {}", answer, question);
        assert_eq!(answer == Answer::done(0), !refused, "{:?} for {}", answer, question);
    }
    let nothing = Tables::default();
    for question in [0, 1, 65535] {
        let case = case_of(&nothing, &Settings::default(), question);
        assert_eq!(compare::find_group(&case), Answer::refused(4, 0));
    }
    // a faulty pair further on, and a faulty row
    let mut later = case_of(&card, &settings, 2);
    later.tables.inclusions.extend([0, 99]);
    assert_eq!(compare::find_group(&later), Answer::refused(4, 0));
    later.question = 1;
    assert_eq!(compare::find_group(&later), Answer::refused(4, 3));
    later.question = 2;
    later.tables.concepts[3] = 3;
    later.tables.concepts[5] = 1;
    assert_eq!(compare::find_group(&later), Answer::refused(3, 1));
    // the question that is asked for may itself be faulty
    let mut faulty = case_of(&card, &settings, 1);
    faulty.tables.questions[2] = 99;
    assert_eq!(compare::find_group(&faulty), Answer::refused(4, 4));
    faulty.question = 2;
    assert_eq!(compare::find_group(&faulty), Answer::refused(4, 0));
}

/// 8 with the number of blanks, of the whole problem; longer buffers keep their rest.
#[test]
fn short_buffers() {
    let card = four_blanks(&[[6, 1], [3, 2]]);
    for (question, wanted) in [(0, Answer::done(0)), (1, Answer::refused(10, 0))] {
        let mut case = case_of(&card, &Settings::open(&card), question);
        for room in [4, 5, 8, 100] {
            case.match_room = room;
            assert_eq!(compare::find_group(&case), wanted, "{} numbers", room);
        }
        for room in 0..4 {
            case.match_room = room;
            assert_eq!(compare::find_group(&case), Answer::refused(8, 4), "{} numbers", room);
            case.settings.largest[3] = 65;
            assert_eq!(compare::find_group(&case), Answer::refused(19, 3));
            case.settings.largest[3] = 64;
        }
    }
}

/// 19 by its places, also for blanks outside the group.
#[test]
fn settings_refused() {
    let card = four_blanks(&[[6, 1], [9, 3]]);
    let open = Settings::open(&card);
    for question in [0, 1] {
        for blank in 0..4 {
            let mut case = case_of(&card, &open, question);
            case.settings.permitted[blank] |= 1 << 6;
            assert_eq!(compare::find_group(&case), Answer::refused(19, blank as u64));
            case.settings = open.clone();
            case.settings.largest[blank] = 65;
            assert_eq!(compare::find_group(&case), Answer::refused(19, blank as u64));
        }
        for (permitted, largest) in [(3, 4), (5, 4), (4, 3), (4, 5), (0, 0)] {
            let settings = Settings::new(&vec![63; permitted], &vec![64; largest]);
            let case = case_of(&card, &settings, question);
            assert_eq!(compare::find_group(&case), Answer::refused(19, 4));
        }
    }
}

/// Every set of faults at once: 1 to 3, the question's place, 4 to 6, 16, 7, then 19 by its places,
/// then 8. No assignment and no pair is asked for.
#[test]
fn every_set_of_faults() {
    for (mut case, chosen) in every_set(&group_faults()) {
        case.pair = (999, 999);
        case.assignment = vec![u64::MAX; 9];
        let wanted = match chosen.first() {
            None => Answer::done(0),
            Some(Fault::ShortBuffer) => Answer::refused(8, 2),
            Some(fault) => Answer::refused(fault.refusal().0, fault.refusal().1),
        };
        assert_eq!(compare::find_group(&case), wanted, "{:?} in\n{}", chosen, case);
    }
}

/// 10 comes last.
#[test]
fn every_fault_before_none() {
    for fault in group_faults() {
        let mut case = base();
        case.tables.questions.extend([2, 3]);
        case.settings.permitted = vec![2; 2];
        assert_eq!(compare::find_group(&case), Answer::refused(10, 0));
        fault.put_into(&mut case);
        let answer = compare::find_group(&case);
        let due = if fault == Fault::NoQuestion { 4 } else { fault.refusal().0 };
        assert_eq!(answer.number, due, "{:?} in\n{}", fault, case);
    }
}

/// Groups of two cards in turn, with refused calls and the whole in between: each call gives what it
/// gives alone.
#[test]
fn answers_do_not_stick() {
    let seed = seed("group, in a row");
    let mut tally = Tally::new("group, in a row");
    for k in 0..cases(Size::Medium) / 8 {
        let mut random = Random::for_case(seed, k);
        let (one, two) = (grouped(&mut random, 12), grouped(&mut random, 12));
        let mut row = Vec::new();
        for tables in [&one, &two, &one] {
            let settings = generate::settings(&mut random, tables);
            for question in 0..tables.questions.len() as u16 / 2 {
                let case = case_of(tables, &settings, question);
                let alone = reference::find_group(tables, &settings, question, case.match_room);
                row.push((case, alone));
            }
        }
        let mut refused = row[0].0.clone();
        refused.question = 32;
        for _ in 0..2 {
            for (case, alone) in &row {
                compare::find_group_expecting(case, alone.clone());
                assert_eq!(compare::find_group(&refused), Answer::refused(4, 0));
                compare::find_within(case);
            }
        }
        tally.case();
        tally.note("several answers", row.iter().any(|(_, alone)| *alone != row[0].1));
    }
    tally.finish(&[("several answers", 50..=100)]);
}

/// Tables, permitted parts and counts may be the same numbers in memory.
#[test]
fn inputs_that_overlap() {
    let numbers = [1, 0, 1, 0];
    let rows = [1, 5, 0, 4, 0, 0];
    let tables = TablesRef {
        concepts: &rows,
        inclusions: &[],
        questions: &numbers,
        roles: &numbers[1..3],
        variables: 1,
    };
    let mut out = [7; 2];
    for question in [0, 1] {
        let answer = capi::find_group(tables, &[1], &numbers[2..3], question, &mut out);
        assert_eq!((answer, out), (Answer::done(0), [1, 7]));
    }
    let answer = capi::find_group(tables, &[1], &numbers[2..3], 2, &mut out);
    assert_eq!((answer, out), (Answer::refused(4, 0), [1, 7]));
    let answer = capi::find_group(tables, &[1], &numbers[3..], 0, &mut out);
    assert_eq!((answer, out), (Answer::refused(10, 0), [1, 7]));
    assert_eq!((numbers, rows), ([1, 0, 1, 0], [1, 5, 0, 4, 0, 0]));
}
