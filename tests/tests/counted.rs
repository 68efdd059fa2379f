//! hc_match_counted: the count of decisions by its definition, the answer of hc_match_within with
//! enough allowance, spent exactly where the count exceeds it; every refusal.

use hermitcasket_tests::capi::{self, Answer};
use hermitcasket_tests::compare;
use hermitcasket_tests::faults::{base, every_set, settings_faults, Fault};
use hermitcasket_tests::generate;
use hermitcasket_tests::hard::{self, Hard, Known};
use hermitcasket_tests::planted;
use hermitcasket_tests::random::{cases, full_run, seed, Random, Size};
use hermitcasket_tests::reference::counting::{by_definition, by_walk, Count};
use hermitcasket_tests::reference::{self, Counted, Refusal};
use hermitcasket_tests::settings::Settings;
use hermitcasket_tests::settings_families::{self, Within};
use hermitcasket_tests::tables::{Case, Tables, TablesRef};
use hermitcasket_tests::tally::Tally;

const SPENT: Refusal = Refusal { number: 14, place: 0 };
/// An allowance that no count here exceeds.
const ANY: u32 = u32::MAX;

fn none(count: u64) -> Answer {
    Answer { value: count, ..Answer::refused(10, 0) }
}

fn spent(allowance: u32) -> Answer {
    Answer { value: u64::from(allowance), ..Answer::refused(14, 0) }
}

fn case_of(tables: &Tables, settings: &Settings, allowance: u32) -> Case {
    let mut case = Case::new(tables.clone(), &[]);
    case.settings = settings.clone();
    case.allowance = allowance;
    case
}

/// The answer, held against the reference with all that was lent.
fn ask(tables: &Tables, permitted: &[u64], largest: &[u16], allowance: u32) -> Answer {
    compare::find_counted(&case_of(tables, &Settings::new(permitted, largest), allowance))
}

/// The first filling and the count written here by hand, from the library and from the reference, on
/// allowances around the count.
fn expect(first: Option<&[u64]>, count: u64, tables: &Tables, permitted: &[u64], largest: &[u16]) {
    let settings = Settings::new(permitted, largest);
    let wanted = Count { first: first.map(<[u64]>::to_vec), count };
    let found = by_walk(tables, &settings, u64::MAX);
    assert_eq!(found.as_ref(), Some(&wanted), "{} for\n{}", settings, tables);
    around_the_count(tables, &settings, &wanted);
}

/// No allowance, one that is just not enough, just enough, and more.
fn around_the_count(tables: &Tables, settings: &Settings, found: &Count) {
    let count = found.count as u32;
    for allowance in [0, 1, count.saturating_sub(1), count, count + 1, ANY] {
        expect_on(tables, settings, found, allowance);
    }
}

fn expect_on(tables: &Tables, settings: &Settings, found: &Count, allowance: u32) -> Answer {
    let due = Counted::within(Some(found.clone()), allowance);
    compare::find_counted_expecting(&case_of(tables, settings, allowance), due)
}

/// The kinds of answer that a tally counts.
fn note(tally: &mut Tally, found: &Count) {
    tally.case();
    tally.note("filled", found.first.is_some());
    tally.note("none", found.first.is_none());
    tally.note("none, open at the start", found.first.is_none() && found.count > 0);
}

/// 01's sample.
fn sample() -> Tables {
    let rows = [[1, 5, 0], [1, 7, 0], [2, 1, 0], [1, 9, 0], [4, 0, 0], [3, 1, 4]];
    Tables::new(&rows, &[[2, 3]], &[[5, 3], [2, 4]], 1)
}

/// 02's words: the count is 4, and an allowance of 3 is spent.
#[test]
fn sample_card() {
    let card = sample();
    for (allowance, answer, written) in [
        (0, spent(0), 77),
        (1, spent(1), 77),
        (2, spent(2), 77),
        (3, spent(3), 77),
        (4, Answer::done(4), 4),
        (5, Answer::done(4), 4),
        (ANY, Answer::done(4), 4),
    ] {
        let mut out = [77; 2];
        let now = capi::find_counted(card.lend(), &[7], &[64], allowance, &mut out);
        assert_eq!((now, out), (answer, [written, 77]), "on {}", allowance);
        assert_eq!(ask(&card, &[7], &[64], allowance), answer);
    }
    expect(Some(&[4]), 4, &card, &[7], &[64]);
    expect(Some(&[4]), 4, &card, &[4], &[1]);
    // what a largest count leaves no room for is unsettled all the same: with nothing, with position 0
    // left out and with 0 and 1 left out the others could still be taken
    expect(None, 3, &card, &[7], &[0]);
    // position 2 barred: with 1 settled either way, and then 2 left out
    expect(Some(&[2]), 4, &card, &[3], &[64]);
    expect(Some(&[2]), 4, &card, &[2], &[1]);
    expect(None, 2, &card, &[3], &[0]);
    // position 0 alone may be taken, and does not fill
    expect(None, 0, &card, &[1], &[64]);
    expect(None, 0, &card, &[0], &[64]);
    // nothing asked: nothing is taken
    let idle = Tables { questions: Vec::new(), ..card };
    for (permitted, largest) in [(0, 0), (1, 0), (0, 64), (1, 64)] {
        expect(Some(&[0]), 4, &idle, &[permitted], &[largest]);
    }
}

/// A card whose empty partial choice is shut: none with count 0 on any allowance, on 0 too. An open one
/// is a decision, which 0 does not allow.
#[test]
fn the_start() {
    let rows = [[1, 5, 0], [1, 6, 0], [4, 0, 0]];
    // barred; with a blank on the right that nothing helps; without blanks
    let wanted = Tables::new(&rows, &[[0, 1]], &[[2, 0]], 1);
    let right = Tables::new(&[[0, 0, 0], [4, 0, 0], [2, 3, 1]], &[], &[[0, 2]], 1);
    let fails = Tables::new(&rows, &[[0, 1]], &[[1, 0]], 1);
    for (card, permitted) in [(&wanted, 2), (&right, 0), (&fails, 3)] {
        for allowance in [0, 1, 2, ANY] {
            let answer = ask(card, &[permitted], &[64], allowance);
            assert_eq!(answer, none(0), "on {} for\n{}", allowance, card);
        }
    }
    let holds = Tables::new(&rows, &[[0, 1]], &[[0, 1]], 1);
    for card in [&wanted, &holds] {
        assert_eq!(ask(card, &[3], &[64], 0), spent(0));
        assert_eq!(ask(card, &[3], &[0], 0), spent(0));
    }
    // open at the start, and none all the same
    expect(None, 1, &wanted, &[3], &[0]);
}

/// Nothing to decide is one decision: no pairs, so the empty partial choice is the answer.
#[test]
fn nothing_to_decide() {
    let rows = [[1, 5, 0], [1, 6, 0]];
    let holds = Tables::new(&rows, &[[0, 1]], &[[0, 1]], 0);
    let fails = Tables::new(&rows, &[[0, 1]], &[[1, 0]], 0);
    expect(Some(&[]), 1, &Tables::default(), &[], &[]);
    expect(Some(&[]), 1, &holds, &[], &[]);
    expect(None, 0, &fails, &[], &[]);
    // blanks, and no parts that they could take
    let bare = Tables::new(&[[4, 0, 0], [0, 0, 0]], &[], &[[0, 1], [1, 0]], 8);
    expect(Some(&[0; 8]), 1, &bare, &[0; 8], &[64; 8]);
    expect(Some(&[0; 8]), 1, &bare, &[0; 8], &[0; 8]);
    let bare = Tables::new(&[[4, 0, 0], [0, 0, 0]], &[], &[], 3);
    expect(Some(&[0; 3]), 1, &bare, &[0; 3], &[0; 3]);
}

/// The pairs of blanks in no question are pairs, before and behind the one that is asked.
#[test]
fn idle_blanks() {
    let rows = [[1, 5, 0], [4, 3, 0]];
    let card = Tables::new(&rows, &[], &[[1, 0]], 8);
    let mut first = [0; 8];
    first[3] = 1;
    // one on the way for each of the eight pairs, and the start
    expect(Some(&first), 9, &card, &[1; 8], &[64; 8]);
    let alone = |k: usize| (0..8).map(|j| u64::from(j == k)).collect::<Vec<_>>();
    expect(Some(&first), 9, &card, &alone(3), &[0, 0, 0, 1, 0, 0, 0, 0]);
    // nothing fills it: every choice of the three idle blanks before it, 1 + 2 + 4 + 8
    let mut largest = [64; 8];
    largest[3] = 0;
    expect(None, 15, &card, &[1; 8], &largest);
    // one of them may take nothing: 1 + 2 + 2 + 4
    expect(None, 9, &card, &[1, 0, 1, 1, 1, 1, 1, 1], &largest);
    largest[1] = 0;
    expect(None, 9, &card, &[1; 8], &largest);
}

/// A barred pair is settled like any other, and only left out.
#[test]
fn barred_pairs_are_pairs() {
    let mut rows: Vec<[u16; 3]> = (0..5).map(|name| [1, name, 0]).collect();
    rows.push([4, 0, 0]);
    let inclusions: Vec<[u16; 2]> = (0..5).map(|id| [id, id]).collect();
    let card = Tables::new(&rows, &inclusions, &[[5, 2]], 1);
    for permitted in 0..32 {
        if permitted >> 2 & 1 == 1 {
            expect(Some(&[4]), 6, &card, &[permitted], &[64]);
        } else {
            expect(None, 0, &card, &[permitted], &[64]);
        }
    }
    // an idle blank of three parts before one that may take none of what it needs: each of the three
    // doubles what is behind it, unless it is barred
    let rows = [[1, 5, 0], [1, 6, 0], [1, 7, 0], [4, 1, 0]];
    let card = Tables::new(&rows, &[[0, 0], [1, 1], [2, 2]], &[[3, 0]], 2);
    for (permitted, count) in [(0, 4), (1, 7), (2, 6), (3, 11), (4, 5), (5, 9), (6, 8), (7, 15)] {
        expect(None, count, &card, &[permitted, 7], &[64, 0]);
        expect(None, 4, &card, &[permitted, 7], &[0, 0]);
    }
    // one of the three at most: 1 + 2 + 3 + 4; two at most: all but the last of 8
    expect(None, 10, &card, &[7, 7], &[1, 0]);
    expect(None, 14, &card, &[7, 7], &[2, 0]);
}

/// The count by its definition over all partial choices, and the walk that larger cards are held
/// against.
fn agree_by_definition(tables: &Tables, settings: &Settings, tally: &mut Tally) -> Count {
    let found = by_definition(tables, settings);
    let walked = by_walk(tables, settings, found.count);
    assert_eq!(walked.as_ref(), Some(&found), "the walk, {} for\n{}", settings, tables);
    let over = found.count.checked_sub(1).map(|most| by_walk(tables, settings, most));
    assert!(matches!(over, None | Some(None)), "the walk, {} for\n{}", settings, tables);
    note(tally, &found);
    found
}

const KINDS: [(&str, std::ops::RangeInclusive<usize>); 3] =
    [("filled", 10..=70), ("none", 30..=90), ("none, open at the start", 2..=70)];

/// Random settings, or all permitted.
fn some_settings(random: &mut Random, tables: &Tables) -> Settings {
    if random.percent(30) {
        Settings::open(tables)
    } else {
        generate::settings(random, tables)
    }
}

#[test]
fn counts_by_definition() {
    let seed = seed("counted, definition");
    let mut tally = Tally::new("counted, definition");
    for k in 0..cases(Size::Small) / 8 {
        let mut random = Random::for_case(seed, k);
        let tables = generate::tiny(&mut random, 8);
        let settings = some_settings(&mut random, &tables);
        let found = agree_by_definition(&tables, &settings, &mut tally);
        around_the_count(&tables, &settings, &found);
    }
    tally.finish(&KINDS);
}

/// Problems that need a search, tiny enough for the definition.
#[test]
fn searches_by_definition() {
    let seed = seed("counted, searches");
    let mut tally = Tally::new("counted, searches");
    for k in 0..(cases(Size::Large) / 8).max(1) {
        let mut random = Random::for_case(seed, k);
        let tables = planted::problem(&mut random, planted::TINY[k % 2]);
        let settings = some_settings(&mut random, &tables);
        let found = agree_by_definition(&tables, &settings, &mut tally);
        around_the_count(&tables, &settings, &found);
    }
    tally.finish(&[("none", 30..=98), ("filled", 2..=70)]);
}

/// Spent below the count, and from the count on the one answer.
#[test]
fn every_allowance() {
    let seed = seed("counted, every allowance");
    let mut tally = Tally::new("counted, every allowance");
    for k in 0..cases(Size::Large) {
        let mut random = Random::for_case(seed, k);
        let tables = generate::tiny(&mut random, 6);
        let settings = some_settings(&mut random, &tables);
        let found = agree_by_definition(&tables, &settings, &mut tally);
        for allowance in 0..=found.count as u32 + 2 {
            let answer = expect_on(&tables, &settings, &found, allowance);
            assert_eq!(answer.number == 14, u64::from(allowance) < found.count);
        }
    }
    tally.finish(&KINDS);
}

/// Unless the allowance is spent: the answer of the finder without one, and its filling, bit for bit.
fn same_as_within(tables: &Tables, settings: &Settings, allowance: u32) -> Answer {
    let Settings { permitted, largest } = settings;
    let mut within = vec![7; usize::from(tables.variables) + 1];
    let mut counted = within.clone();
    let old = capi::find_within(tables.lend(), permitted, largest, &mut within);
    let now = capi::find_counted(tables.lend(), permitted, largest, allowance, &mut counted);
    if now.number == 14 {
        assert_eq!(now, spent(allowance), "{} for\n{}", settings, tables);
        within.fill(7);
    } else {
        let same = Answer { value: 0, ..now };
        assert_eq!(same, old, "{} for\n{}", settings, tables);
    }
    assert_eq!(counted, within, "{} for\n{}", settings, tables);
    now
}

#[test]
fn enough_allowance_is_the_old_answer() {
    let seed = seed("counted, within");
    let mut tally = Tally::new("counted, within");
    for k in 0..cases(Size::Small) / 2 {
        let mut random = Random::for_case(seed, k);
        let tables = generate::tiny(&mut random, 16);
        let settings = some_settings(&mut random, &tables);
        let answer = same_as_within(&tables, &settings, ANY);
        tally.case();
        tally.note("filled", answer.number == 0);
        tally.note("none", answer.number == 10);
        assert_ne!(answer.number, 14, "{} for\n{}", settings, tables);
    }
    tally.finish(&[("filled", 10..=70), ("none", 30..=90)]);
}

/// A larger allowance never alters a filling or a 10, nor their count; a smaller one than the count
/// is spent. Of the library alone, so on cards of every size.
fn grow(tables: &Tables, settings: &Settings, tally: &mut Tally) {
    let mut last: Option<Answer> = None;
    for allowance in [0, 1, 7, 50, 300, 2_000] {
        let answer = same_as_within(tables, settings, allowance);
        if let Some(last) = last {
            assert_eq!(answer, last, "on {}, {} for\n{}", allowance, settings, tables);
        }
        if answer.number != 14 {
            assert!(answer.value <= u64::from(allowance), "{:?} on {}", answer, allowance);
            last = Some(answer);
        }
    }
    if let Some(Answer { value: count @ 1.., .. }) = last {
        let less = count as u32 - 1;
        assert_eq!(same_as_within(tables, settings, less), spent(less), "for\n{}", tables);
    }
    tally.case();
    tally.note("filled", last.map_or(false, |answer| answer.number == 0));
    tally.note("none", last.map_or(false, |answer| answer.number == 10));
    tally.note("spent", last.is_none());
}

#[test]
fn a_larger_allowance_alters_nothing() {
    let seed = seed("counted, growing");
    let mut tally = Tally::new("counted, growing");
    for (size, share) in [(Size::Small, 24), (Size::Medium, 8), (Size::Large, 4)] {
        for k in 0..(cases(size) / share).max(1) {
            let mut random = Random::for_case(seed, k);
            let mut tables = generate::valid(&mut random, size);
            tables.questions.truncate(2 * random.between(1, 4));
            let settings = some_settings(&mut random, &tables);
            grow(&tables, &settings, &mut tally);
        }
    }
    let shapes = [planted::MEDIUM, planted::FULL[0], planted::FULL[1], planted::FULL[2]];
    for (k, shape) in (0..(cases(Size::Large) / 2).max(1)).zip(shapes.into_iter().cycle()) {
        let tables = planted::problem(&mut Random::for_case(seed, k), shape);
        grow(&tables, &Settings::open(&tables), &mut tally);
    }
    tally.finish(&[("filled", 10..=80), ("none", 10..=80), ("spent", 1..=60)]);
}

/// Random cases, damaged or not, against the walk.
#[test]
fn random_cases_agree() {
    let seed = seed("counted");
    let mut seen = [0; 20];
    let mut tally = Tally::new("counted");
    for (size, share) in [(Size::Small, 4), (Size::Medium, 4), (Size::Large, 6)] {
        for k in 0..(cases(size) / share).max(1) {
            let mut random = Random::for_case(seed, k);
            let mut case = generate::within_case(&mut random, size);
            let most = *random.pick(&[1, 10, 100, 600]);
            case.allowance = random.below(most) as u32;
            let answer = compare::find_counted(&case);
            seen[usize::from(answer.number)] += 1;
            tally.case();
            tally.note("filled", answer.number == 0);
            tally.note("none", answer.number == 10);
            tally.note("none, not at the start", answer.number == 10 && answer.value > 0);
            tally.note("spent", answer.number == 14);
            tally.note("refused otherwise", ![0, 10, 14].contains(&answer.number));
        }
    }
    let all_seen = (0..11).filter(|&n| n != 9).chain([14, 16, 19]).all(|n| seen[n] > 0);
    assert!(all_seen || !full_run(), "answers 0 to 10, 14, 16 and 19: {:?}", seen);
    tally.finish(&[
        ("filled", 5..=60),
        ("none", 10..=60),
        ("spent", 5..=60),
        ("refused otherwise", 20..=60),
    ]);
}

/// Against the walk up to this many decisions.
fn agree(tables: &Tables, settings: &Settings, most: u32, tally: &mut Tally) {
    let found = by_walk(tables, settings, u64::from(most));
    let case = case_of(tables, settings, most);
    let answer = compare::find_counted_expecting(&case, Counted::within(found.clone(), most));
    if let Some(found) = &found {
        around_the_count(tables, settings, found);
    }
    tally.case();
    tally.note("filled", answer.number == 0);
    tally.note("none", answer.number == 10);
    tally.note("spent", answer.number == 14);
}

/// The families of hard problems and of settings, small and at full size.
#[test]
fn families() {
    let seed = seed("counted, families");
    let mut tally = Tally::new("counted, families");
    let small = [hard::puzzles(seed), hard::with_harmless(5)];
    for Hard { tables, .. } in small.iter().flatten() {
        agree(tables, &Settings::open(tables), 5_000, &mut tally);
    }
    for Within { tables, settings, .. } in &settings_families::small(seed) {
        agree(tables, settings, 5_000, &mut tally);
    }
    let large = [hard::with_harmless(60), hard::at_the_limits(seed), hard::spread_over_roles(seed)];
    for Hard { tables, .. } in large.iter().flatten() {
        agree(tables, &Settings::open(tables), 1_500, &mut tally);
    }
    for Within { tables, settings, .. } in &settings_families::large(seed) {
        agree(tables, settings, 1_500, &mut tally);
    }
    tally.finish(&[("filled", 5..=60), ("none", 5..=60), ("spent", 10..=80)]);
}

/// K harmless parts before one that is needed and forbidden: every choice of the K, and of fewer, is
/// open, and nothing fills the card.
#[test]
fn harmless_parts_double_the_count() {
    for k in 1..=16 {
        let Hard { tables, known, .. } = hard::needed_and_forbidden(k);
        assert_eq!(known, Known::Unsolvable);
        let Settings { permitted, largest } = Settings::open(&tables);
        let count = (1 << (k + 1)) - 1;
        let answer = |allowance| {
            capi::find_counted(tables.lend(), &permitted, &largest, allowance, &mut [0])
        };
        assert_eq!(answer(count), none(u64::from(count)), "{} parts", k);
        assert_eq!(answer(ANY), none(u64::from(count)), "{} parts", k);
        assert_eq!(answer(count - 1), spent(count - 1), "{} parts", k);
    }
    // 2^61 - 1 of them
    let Hard { tables, .. } = hard::needed_and_forbidden(60);
    let Settings { permitted, largest } = Settings::open(&tables);
    for allowance in [0, 1, 1_000, 100_000] {
        let mut out = [7];
        let answer = capi::find_counted(tables.lend(), &permitted, &largest, allowance, &mut out);
        assert_eq!((answer, out), (spent(allowance), [7]));
    }
}

/// 8 blanks and 64 parts: 512 pairs, and so 513 on the way to a first filling without a turn.
#[test]
fn at_the_limits() {
    let mut rows: Vec<[u16; 3]> = (0..64).map(|name| [1, name, 0]).collect();
    rows.extend((0..8).map(|blank| [4, blank, 0]));
    let inclusions: Vec<[u16; 2]> = (0..64).map(|id| [id, id]).collect();
    let all = [u64::MAX; 8];
    let nothing_asked = Tables::new(&rows, &inclusions, &[], 8);
    expect(Some(&[0; 8]), 513, &nothing_asked, &all, &[64; 8]);
    expect(Some(&[0; 8]), 513, &nothing_asked, &[0; 8], &[0; 8]);
    for (blank, part) in [(0, 0), (0, 63), (3, 17), (7, 0), (7, 63)] {
        let card = Tables::new(&rows, &inclusions, &[[64 + blank, part]], 8);
        let mut first = [0; 8];
        first[usize::from(blank)] = 1 << part;
        expect(Some(&first), 513, &card, &all, &[64; 8]);
        expect(Some(&first), 513, &card, &first, &[1; 8]);
    }
    // all of the last blank's, and all of every blank's
    rows.push([3, 0, 1]);
    for part in 2..64 {
        rows.push([3, rows.len() as u16 - 1, part]);
    }
    let every = rows.len() as u16 - 1;
    let card = Tables::new(&rows, &inclusions, &[[71, every]], 8);
    let mut first = [0; 8];
    first[7] = u64::MAX;
    expect(Some(&first), 513, &card, &all, &[64; 8]);
    let wanted: Vec<[u16; 2]> = (64..72).map(|blank| [blank, every]).collect();
    let card = Tables::new(&rows, &inclusions, &wanted, 8);
    expect(Some(&all), 513, &card, &all, &[64; 8]);
    // one too few for the last: every pair before the last is settled first
    let mut largest = [64; 8];
    largest[7] = 63;
    expect(None, 512, &card, &all, &largest);
}

/// Two variables and three atoms.
fn two_blanks() -> Tables {
    let rows = [[1, 5, 0], [1, 6, 0], [1, 7, 0], [4, 0, 0], [4, 1, 0]];
    Tables::new(&rows, &[[0, 1], [2, 2]], &[[3, 1], [4, 2]], 2)
}

/// 19 with value 0, whatever the allowance.
#[test]
fn settings_refused() {
    let card = two_blanks();
    for allowance in [0, 1, ANY] {
        for (permitted, largest, place) in [
            (&[7][..], &[64, 64][..], 2),
            (&[7, 7, 7], &[64, 64], 2),
            (&[7, 7], &[64], 2),
            (&[7, 8], &[64, 64, 65], 2),
            (&[], &[], 2),
            (&[8, 7], &[64, 64], 0),
            (&[7, 8], &[64, 64], 1),
            (&[7, 8], &[65, 64], 0),
            (&[7, 7], &[64, 65], 1),
            (&[7, 1 << 63], &[0, 0], 1),
            (&[7, 7], &[64, 65535], 1),
        ] {
            let answer = ask(&card, permitted, largest, allowance);
            assert_eq!(answer, Answer::refused(19, place), "{:?} {:?}", permitted, largest);
        }
    }
}

/// 8 with the number of variables and value 0, after 19 and before 10 and 14; longer buffers keep
/// their rest, and a spent allowance writes nothing.
#[test]
fn short_buffers() {
    let card = two_blanks();
    let filled = (64, 7, Answer::done(7));
    for (largest, allowance, wanted) in
        [filled, (64, 6, spent(6)), (64, 0, spent(0)), (0, ANY, none(2)), (0, 1, spent(1))]
    {
        let settings = Settings::new(&[7, 7], &[largest; 2]);
        let mut case = case_of(&card, &settings, allowance);
        for room in [2, 3, 8, 100] {
            case.match_room = room;
            assert_eq!(compare::find_counted(&case), wanted, "{} numbers", room);
        }
        for room in [0, 1] {
            case.match_room = room;
            assert_eq!(compare::find_counted(&case), Answer::refused(8, 2), "{} numbers", room);
            case.settings.largest[1] = 65;
            assert_eq!(compare::find_counted(&case), Answer::refused(19, 1));
            case.settings.largest[1] = largest;
        }
    }
}

/// Every set of faults at once: 1 to 6, 16, 7, then 19 by its places, then 8, all with value 0; then
/// the 120 pairs of the card. No assignment and no pair is asked for.
#[test]
fn every_set_of_faults() {
    for (mut case, chosen) in every_set(&settings_faults()) {
        case.pair = (999, 999);
        case.assignment = vec![u64::MAX; 9];
        for (allowance, alone) in [(0, spent(0)), (121, Answer::done(121))] {
            case.allowance = allowance;
            let wanted = match chosen.first() {
                None => alone,
                Some(Fault::ShortBuffer) => Answer::refused(8, 2),
                Some(fault) => Answer::refused(fault.refusal().0, fault.refusal().1),
            };
            assert_eq!(compare::find_counted(&case), wanted, "{:?} in\n{}", chosen, case);
        }
    }
}

/// 10 and 14 come last: the same with a question that only barred parts solve, and with one that no
/// choice within the count solves.
#[test]
fn every_fault_before_none_and_spent() {
    for fault in settings_faults() {
        for (permitted, largest, allowance, wanted) in
            [(2, 64, 0, none(0)), (3, 0, 1, none(1)), (3, 0, 0, spent(0)), (3, 64, 120, spent(120))]
        {
            let mut case = base();
            case.tables.questions.extend([2, 3]);
            case.settings.permitted = vec![permitted; 2];
            case.settings.largest = vec![largest; 2];
            case.allowance = allowance;
            assert_eq!(compare::find_counted(&case), wanted);
            fault.put_into(&mut case);
            let answer = compare::find_counted(&case);
            assert_eq!(answer.number, fault.refusal().0, "{:?} in\n{}", fault, case);
            assert_eq!(answer.value, 0, "{:?} in\n{}", fault, case);
        }
    }
}

/// Two cards in turn on several allowances, with refused calls and the finders without an allowance in
/// between: each call gives what it gives alone.
#[test]
fn answers_do_not_stick() {
    let seed = seed("counted, in a row");
    let mut tally = Tally::new("counted, in a row");
    for k in 0..cases(Size::Medium) / 8 {
        let mut random = Random::for_case(seed, k);
        let (one, two) = (generate::tiny(&mut random, 12), generate::tiny(&mut random, 12));
        let mut row = Vec::new();
        for tables in [&one, &two, &one] {
            let settings = some_settings(&mut random, tables);
            let count = by_walk(tables, &settings, u64::MAX).expect("no allowance").count as u32;
            for allowance in [ANY, count.saturating_sub(1), random.below(4) as u32] {
                let case = case_of(tables, &settings, allowance);
                let alone = reference::find_counted(tables, &settings, allowance, case.match_room);
                row.push((case, alone));
            }
        }
        let mut refused = row[0].0.clone();
        refused.settings.largest.push(1);
        for _ in 0..2 {
            for (case, alone) in &row {
                compare::find_counted_expecting(case, alone.clone());
                assert_eq!(
                    compare::find_counted(&refused),
                    Answer::refused(19, u64::from(one.variables))
                );
                compare::find_within(case);
                compare::find(case);
            }
        }
        tally.case();
        tally.note("several answers", row[0].1 != row[3].1 || row[0].1 != row[6].1);
        tally.note("spent", row.iter().any(|(_, alone)| alone.answer == Err(SPENT)));
    }
    tally.finish(&[("several answers", 10..=100), ("spent", 10..=100)]);
}

/// Tables, permitted parts and counts may be the same numbers in memory.
#[test]
fn inputs_that_overlap() {
    let numbers = [1, 0, 1, 0];
    let rows = [1, 5, 0, 4, 0, 0];
    let tables = TablesRef {
        concepts: &rows,
        inclusions: &[],
        questions: &numbers[..2],
        roles: &numbers[1..3],
        variables: 1,
    };
    let mut out = [7; 2];
    let answer = capi::find_counted(tables, &[1], &numbers[2..3], 1, &mut out);
    assert_eq!((answer, out), (spent(1), [7, 7]));
    let answer = capi::find_counted(tables, &[1], &numbers[2..3], 2, &mut out);
    assert_eq!((answer, out), (Answer::done(2), [1, 7]));
    let answer = capi::find_counted(tables, &[1], &numbers[3..], 2, &mut out);
    assert_eq!((answer, out), (none(1), [1, 7]));
    assert_eq!((numbers, rows), ([1, 0, 1, 0], [1, 5, 0, 4, 0, 0]));
}
