//! What one more inclusion or question can move (02: how far one line can move a sheet), of the library
//! alone: answers before and after the edit.

use hermitcasket_tests::capi::{self, Answer};
use hermitcasket_tests::generate;
use hermitcasket_tests::layout;
use hermitcasket_tests::limits::ROW_BYTES;
use hermitcasket_tests::random::{cases, seed, Random, Size};
use hermitcasket_tests::reference::{self, atoms};
use hermitcasket_tests::settings::{all_atoms, Settings};
use hermitcasket_tests::tables::Tables;
use hermitcasket_tests::tally::Tally;

/// An allowance that is enough on small cards.
const ENOUGH: u32 = 200_000;

/// The tables with one more pair among these pairs, at any place.
fn insert(random: &mut Random, pairs: &[u16], pair: [u16; 2]) -> Vec<u16> {
    let at = 2 * random.below(pairs.len() / 2 + 1);
    [&pairs[..at], &pair, &pairs[at..]].concat()
}

/// One more inclusion of ids without blanks, accepted as before.
fn more_inclusions(random: &mut Random, tables: &Tables) -> Option<Tables> {
    let pattern = atoms::patterns(tables);
    let free: Vec<usize> = (0..tables.concept_count()).filter(|&id| !pattern[id]).collect();
    if free.is_empty() {
        return None;
    }
    let pair = [*random.pick(&free) as u16, *random.pick(&free) as u16];
    let inclusions = insert(random, &tables.inclusions, pair);
    let newer = Tables { inclusions, ..tables.clone() };
    reference::check(&newer).is_ok().then_some(newer)
}

/// One more question that brings no part, accepted as before.
fn more_questions(random: &mut Random, tables: &Tables) -> Option<Tables> {
    let count = tables.concept_count();
    if count == 0 {
        return None;
    }
    let pair = [random.below(count) as u16, random.below(count) as u16];
    let questions = insert(random, &tables.questions, pair);
    let newer = Tables { questions, ..tables.clone() };
    let accepted = reference::check(&newer).is_ok();
    (accepted && atoms::list(&newer) == atoms::list(tables)).then_some(newer)
}

/// The assignment of the newer tables that chooses the same ids.
fn with_ids_kept(older: &Tables, newer: &Tables, assignment: &[u64]) -> Vec<u64> {
    let positions = atoms::list(newer);
    let bit = |id: &usize| 1 << positions.iter().position(|other| other == id).expect("still a part");
    let chosen = atoms::chosen(older, assignment);
    chosen.iter().map(|ids| ids.iter().map(bit).sum()).collect()
}

/// The pairs below under an assignment.
fn below(tables: &Tables, assignment: &[u64]) -> Vec<Vec<bool>> {
    let count = tables.concept_count();
    let mut rows = vec![0; count * ROW_BYTES];
    let answer = capi::subsumption_table(tables.lend(), assignment, &mut rows);
    assert_eq!((answer.number, answer.place), (0, 0), "for\n{}", tables);
    layout::read(&rows, count)
}

/// What a finder within settings gives: the first filling, or none.
fn within(tables: &Tables, settings: &Settings) -> Option<Vec<u64>> {
    let mut out = vec![0; usize::from(tables.variables)];
    let Settings { permitted, largest } = settings;
    let answer = capi::find_within(tables.lend(), permitted, largest, &mut out);
    assert!([0, 10].contains(&answer.number), "{:?} for\n{}", answer, tables);
    (answer.number == 0).then_some(out)
}

fn any(tables: &Tables) -> Option<Vec<u64>> {
    let mut out = vec![0; usize::from(tables.variables)];
    let answer = capi::find(tables.lend(), &mut out);
    assert!([0, 10].contains(&answer.number), "{:?} for\n{}", answer, tables);
    (answer.number == 0).then_some(out)
}

/// The same on an allowance; nothing where it is spent.
fn counted(tables: &Tables, settings: &Settings) -> Option<Option<Vec<u64>>> {
    let mut out = vec![0; usize::from(tables.variables)];
    let Settings { permitted, largest } = settings;
    let answer = capi::find_counted(tables.lend(), permitted, largest, ENOUGH, &mut out);
    match answer.number {
        0 => Some(Some(out)),
        10 => Some(None),
        14 => None,
        _ => panic!("{:?} for\n{}", answer, tables),
    }
}

/// Whether the one is the other or comes before it: at the first pair where they differ it leaves the
/// part out.
fn no_later(one: &[u64], other: &[u64]) -> bool {
    for (a, b) in one.iter().zip(other) {
        let differing = a ^ b;
        if differing != 0 {
            return a >> differing.trailing_zeros() & 1 == 0;
        }
    }
    true
}

/// Tables with some questions, so that both answers are frequent.
fn card(random: &mut Random, size: Size) -> Tables {
    let mut tables = generate::valid(random, size);
    tables.questions.truncate(2 * random.between(1, 5));
    tables
}

/// No yes becomes a no where the chosen ids are kept, though their positions may move.
#[test]
fn an_inclusion_turns_no_yes_into_a_no() {
    let seed = seed("edits, yes");
    let mut tally = Tally::new("edits, yes");
    for (size, share) in [(Size::Small, 2), (Size::Medium, 2), (Size::Large, 4)] {
        for k in 0..(cases(size) / share).max(1) {
            let mut random = Random::for_case(seed, k);
            let older = generate::valid(&mut random, size);
            let newer = more_inclusions(&mut random, &older);
            tally.case();
            tally.note("left out", newer.is_none());
            let newer = match newer {
                Some(newer) => newer,
                None => continue,
            };
            let assignment = generate::assignment(&mut random, &older);
            let kept = with_ids_kept(&older, &newer, &assignment);
            let (was, is) = (below(&older, &assignment), below(&newer, &kept));
            for (i, row) in was.iter().enumerate() {
                let lost = (0..row.len()).find(|&j| row[j] && !is[i][j]);
                assert_eq!(lost, None, "{} in\n{}\n{}", i, older, newer);
            }
            let one = (random.below(was.len()), random.below(was.len()));
            let pair = (one.0 as u16, one.1 as u16);
            let now = capi::subsumed(newer.lend(), &kept, pair);
            assert_eq!(now, Answer::done(u64::from(is[one.0][one.1])));
            tally.note("more yes", was != is);
            tally.note("positions moved", assignment != kept);
        }
    }
    tally.finish(&[("left out", 0..=30), ("more yes", 10..=90), ("positions moved", 1..=60)]);
}

/// A filled card stays filled where no part is barred and the largest counts stay: with both finders,
/// and without settings.
#[test]
fn an_inclusion_leaves_a_filled_card_filled() {
    let seed = seed("edits, filled");
    let mut tally = Tally::new("edits, filled");
    for (size, share) in [(Size::Small, 2), (Size::Medium, 4), (Size::Large, 8)] {
        for k in 0..(cases(size) / share).max(1) {
            let mut random = Random::for_case(seed, k);
            let older = card(&mut random, size);
            let newer = more_inclusions(&mut random, &older);
            tally.case();
            tally.note("left out", newer.is_none());
            let newer = match newer {
                Some(newer) => newer,
                None => continue,
            };
            // before, parts may be barred; after, none is
            let mut settings = generate::settings(&mut random, &older);
            let was = within(&older, &settings);
            settings.permitted.fill(all_atoms(&newer));
            let is = within(&newer, &settings);
            assert!(was.is_none() || is.is_some(), "{} for\n{}\n{}", settings, older, newer);
            if was.is_some() && size == Size::Small {
                let on_allowance = counted(&newer, &settings);
                assert_ne!(on_allowance, Some(None), "{} for\n{}\n{}", settings, older, newer);
                tally.note("allowance spent", on_allowance.is_none());
            }
            let (free, then) = (any(&older), any(&newer));
            assert!(free.is_none() || then.is_some(), "for\n{}\n{}", older, newer);
            tally.note("filled", was.is_some());
            tally.note("none becomes filled", free.is_none() && then.is_some());
        }
    }
    tally.finish(&[
        ("left out", 0..=30),
        ("allowance spent", 0..=1),
        ("filled", 10..=80),
        ("none becomes filled", 1..=50),
    ]);
}

/// A question that brings no part leaves the filling, moves it later, or takes it away; a none stays.
#[test]
fn a_question_moves_the_filling_later() {
    let seed = seed("edits, questions");
    let mut tally = Tally::new("edits, questions");
    for (size, share) in [(Size::Small, 1), (Size::Medium, 4), (Size::Large, 8)] {
        for k in 0..(cases(size) / share).max(1) {
            let mut random = Random::for_case(seed, k);
            let older = card(&mut random, size);
            let newer = more_questions(&mut random, &older);
            tally.case();
            tally.note("left out", newer.is_none());
            let newer = match newer {
                Some(newer) => newer,
                None => continue,
            };
            let settings = generate::settings(&mut random, &older);
            let answers = [
                (any(&older), any(&newer)),
                (within(&older, &settings), within(&newer, &settings)),
            ];
            for (was, is) in &answers {
                let right = match (was, is) {
                    (None, is) => is.is_none(),
                    (Some(_), None) => true,
                    (Some(was), Some(is)) => no_later(was, is),
                };
                assert!(right, "{:?} {:?}, {} for\n{}\n{}", was, is, settings, older, newer);
            }
            if size == Size::Small {
                let (was, is) = (counted(&older, &settings), counted(&newer, &settings));
                assert!(was.is_none() || was == Some(answers[1].0.clone()));
                assert!(is.is_none() || is == Some(answers[1].1.clone()));
                tally.note("allowance spent", was.is_none() || is.is_none());
            }
            let (was, is) = &answers[0];
            tally.note("stays", was.is_some() && was == is);
            tally.note("moves later", was.is_some() && is.is_some() && was != is);
            tally.note("is gone", was.is_some() && is.is_none());
            tally.note("none stays", was.is_none());
        }
    }
    tally.finish(&[
        ("left out", 0..=50),
        ("allowance spent", 0..=1),
        ("stays", 5..=80),
        ("moves later", 1..=60),
        ("is gone", 2..=60),
        ("none stays", 5..=80),
    ]);
}

/// The premises are needed: what the sentences do not say can happen.
#[test]
fn what_is_not_said() {
    // 0 and 1 are names, 2 the blank, wanted below 1
    let rows = [[1, 5, 0], [1, 6, 0], [4, 0, 0]];
    let older = Tables::new(&rows, &[], &[[2, 1]], 1);
    let newer = Tables::new(&rows, &[[0, 1]], &[[2, 1]], 1);
    // one part before, id 1; two after: the same id has another position, and the same choice is another
    assert_eq!((atoms::list(&older), atoms::list(&newer)), (vec![1], vec![0, 1]));
    assert_eq!((any(&older), any(&newer)), (Some(vec![1]), Some(vec![2])));
    assert_eq!(with_ids_kept(&older, &newer, &[1]), [2]);
    // with parts barred an inclusion may empty a card: position 0 was id 1, and is id 0 once an inclusion names it
    let first = Settings::new(&[1], &[64]);
    let named = Tables::new(&rows, &[[0, 0]], &[[2, 1]], 1);
    assert_eq!(atoms::list(&named), [0, 1]);
    assert_eq!((within(&older, &first), within(&named, &first)), (Some(vec![1]), None));
    // a smaller largest count takes the filling away too
    assert_eq!(within(&newer, &Settings::new(&[3], &[0])), None);
    // a question that brings a part gives the others new positions, and so can move the filling either way
    let brought = Tables::new(&rows, &[], &[[2, 1], [0, 0]], 1);
    assert_eq!((atoms::list(&brought), any(&brought)), (vec![0, 1], Some(vec![2])));
    assert!(!no_later(&any(&older).expect("filled"), &any(&brought).expect("filled")));
    let both = Tables::new(&rows, &[], &[[2, 1], [2, 0]], 1);
    assert_eq!((atoms::list(&both), any(&both)), (vec![0, 1], Some(vec![3])));
    assert!(no_later(&any(&older).expect("filled"), &any(&both).expect("filled")));
    assert!(no_later(&[2], &[1]) && !no_later(&[1], &[2]) && no_later(&[1], &[1]));
}
