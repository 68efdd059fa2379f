//! hc_match_cards: each table's answer is the one it has alone with its share and what is left over, on
//! its stretch of the buffer; the shares are kept; every refusal.

use hermitcasket_tests::capi::{self, Answer, Cards};
use hermitcasket_tests::compare;
use hermitcasket_tests::faults::{every_set, table_faults};
use hermitcasket_tests::generate;
use hermitcasket_tests::hard;
use hermitcasket_tests::random::{cases, full_run, seed, Random, Size};
use hermitcasket_tests::reference::{self, batches};
use hermitcasket_tests::settings::Settings;
use hermitcasket_tests::tables::{Case, Tables, TablesRef};
use hermitcasket_tests::tally::Tally;

const MILLION: u32 = 1_000_000;

/// One catalogue and several question tables, with a buffer as long as wanted.
fn case_of(catalogue: &Tables, questions: &[&[u16]], shares: &[u32]) -> Case {
    let tables = Tables { questions: questions.concat(), ..catalogue.clone() };
    let mut case = Case::new(tables, &[]);
    case.lengths = questions.iter().map(|table| table.len() as u16).collect();
    case.shares = shares.to_vec();
    case.match_room = questions.len() * usize::from(catalogue.variables);
    case
}

/// 01's sample: its two questions take four decisions, none fills the second with the third.
fn sample() -> Tables {
    let rows = [[1, 5, 0], [1, 7, 0], [2, 1, 0], [1, 9, 0], [4, 0, 0], [3, 1, 4]];
    Tables::new(&rows, &[[2, 3]], &[], 1)
}

const SAMPLE: [u16; 4] = [5, 3, 2, 4];

fn counted(number: u16, value: u64) -> Answer {
    Answer { number, place: 0, value }
}

/// The answers table by table, and what is left over.
fn expect(case: &Case, answers: &[Answer], left: u64) -> Cards {
    let cards = compare::find_batch(case);
    assert_eq!((cards.number, cards.place, cards.left), (0, 0, left), "{:?}", cards);
    for k in 0..8 {
        let due = answers.get(k).copied().unwrap_or(Answer::done(0));
        assert_eq!(cards.answer(k), due, "table {} of {:?}", k, cards);
    }
    kept(case, &cards);
    cards
}

/// The sum of the counts and of what is left over is the sum of the shares; a table refused for anything
/// but 10 or 14 reports nothing, and one that is spent leaves nothing over.
fn kept(case: &Case, cards: &Cards) {
    let used: u64 = cards.counts.iter().map(|&count| u64::from(count)).sum();
    let shares: u64 = case.shares.iter().map(|&share| u64::from(share)).sum();
    assert_eq!(used + cards.left, shares, "{:?} for\n{}", cards, case);
    for k in 0..8 {
        let refused = ![0, 10, 14].contains(&cards.numbers[k]);
        assert!(!refused || cards.counts[k] == 0, "{:?} for\n{}", cards, case);
    }
}

/// Every table by itself through hc_match_counted, with what the batch left for it.
fn alone(case: &Case, cards: &Cards) {
    let mut left = 0;
    let mut expected = vec![0xabcd; case.match_room];
    let mut out = expected.clone();
    let again = capi::find_batch(case.tables.lend(), &case.lengths, &case.shares, &mut out);
    assert_eq!(again, *cards);
    for (k, table) in batches::split(&case.tables, &case.lengths).iter().enumerate() {
        let accepted = reference::check(table).is_ok();
        let Settings { permitted, largest } =
            if accepted { Settings::open(table) } else { Settings::default() };
        let amount = left + case.shares[k];
        let stretch = &mut expected[batches::stretch(&case.tables, case.match_room, k)];
        let answer = capi::find_counted(table.lend(), &permitted, &largest, amount, stretch);
        assert_eq!(answer, cards.answer(k), "table {} of\n{}", k, case);
        left = amount - cards.counts[k];
    }
    assert_eq!(out, expected, "for\n{}", case);
    assert_eq!(u64::from(left), cards.left, "for\n{}", case);
}

/// What is left over goes on to the next table, and no further than it lasts.
#[test]
fn shares_and_what_is_left_over() {
    let filled = counted(0, 4);
    let sample = sample();
    let three = [&SAMPLE[..]; 3];
    expect(&case_of(&sample, &three, &[4, 4, 4]), &[filled; 3], 0);
    expect(&case_of(&sample, &three, &[12, 0, 0]), &[filled; 3], 0);
    expect(&case_of(&sample, &three, &[13, 0, 0]), &[filled; 3], 1);
    // spent: all of it is used, and nothing goes on
    let spent = |amount| counted(14, amount);
    expect(&case_of(&sample, &three, &[3, 4, 4]), &[spent(3), filled, filled], 0);
    expect(&case_of(&sample, &three, &[5, 2, 4]), &[filled, spent(3), filled], 0);
    expect(&case_of(&sample, &three, &[5, 3, 4]), &[filled; 3], 0);
    expect(&case_of(&sample, &three, &[0, 0, 0]), &[spent(0); 3], 0);
    expect(&case_of(&sample, &three, &[7, 0, 1]), &[filled, spent(3), spent(1)], 0);
    // none uses what it took: no part is above the second name and below the fourth
    let none: &[u16] = &[4, 3, 1, 4];
    let answers = [counted(10, 3), filled, counted(10, 3)];
    expect(&case_of(&sample, &[none, &SAMPLE, none], &[4, 3, 5]), &answers, 2);
    expect(&case_of(&sample, &[none, &SAMPLE, none], &[2, 4, 2]), &[spent(2), filled, spent(2)], 0);
}

/// No tables, one, eight; nine are refused.
#[test]
fn how_many_tables() {
    let sample = sample();
    expect(&case_of(&sample, &[], &[]), &[], 0);
    for count in 1..=8 {
        let case = case_of(&sample, &vec![&SAMPLE[..]; count], &vec![5; count]);
        expect(&case, &vec![counted(0, 4); count], count as u64);
    }
    let nine = case_of(&sample, &[&SAMPLE[..]; 9], &[5; 9]);
    assert_eq!(compare::find_batch(&nine), Cards::refused(20, 8));
    // empty tables are tables: nothing is asked, and the three parts are left out
    let empty: [&[u16]; 9] = [&[]; 9];
    expect(&case_of(&sample, &empty[..8], &[4; 8]), &[counted(0, 4); 8], 0);
    let nine = case_of(&sample, &empty, &[4; 9]);
    assert_eq!(compare::find_batch(&nine), Cards::refused(20, 8));
}

/// 20 with place 8 for the shape, before a share over a million, whose place is the table.
#[test]
fn refused_as_a_whole() {
    let good = case_of(&sample(), &[&SAMPLE[..]; 3], &[4; 3]);
    let refused = |change: &dyn Fn(&mut Case), place: u64| {
        let mut case = good.clone();
        change(&mut case);
        assert_eq!(compare::find_batch(&case), Cards::refused(20, place), "for\n{}", case);
        // whatever else is wrong
        case.tables.concepts.push(7);
        case.match_room = 0;
        assert_eq!(compare::find_batch(&case), Cards::refused(20, place), "for\n{}", case);
    };
    refused(&|case| case.shares.truncate(case.shares.len() - 1), 8);
    refused(&|case| case.shares.push(0), 8);
    refused(&|case| case.shares.clear(), 8);
    refused(&|case| case.lengths.truncate(case.lengths.len() - 1), 8);
    refused(&|case| case.lengths.push(0), 8);
    refused(&|case| case.lengths[1] += 1, 8);
    refused(&|case| case.lengths[1] -= 1, 8);
    refused(&|case| case.lengths[2] = 65535, 8);
    refused(&|case| case.tables.questions.truncate(case.tables.questions.len() - 1), 8);
    refused(&|case| case.tables.questions.push(0), 8);
    for k in 0..3 {
        refused(&|case| case.shares[k] = MILLION + 1, k as u64);
        refused(&|case| case.shares[k] = u32::MAX, k as u64);
        refused(&|case| case.shares[k..].fill(MILLION + 1), k as u64);
    }
    refused(&|case| (case.shares[0], case.lengths[0]) = (u32::MAX, 3), 8);
    refused(&|case| (case.shares, case.lengths) = (vec![u32::MAX; 9], vec![0; 9]), 8);
    // lengths that add up over another split are no fault of the whole
    let mut case = good.clone();
    case.lengths = vec![0, 12, 0];
    expect(&case, &[counted(0, 4); 3], 0);
}

/// A million is a share; amounts may be more.
#[test]
fn largest_shares() {
    let eight = case_of(&sample(), &[&SAMPLE[..]; 8], &[MILLION; 8]);
    expect(&eight, &[counted(0, 4); 8], 8 * u64::from(MILLION) - 32);
    // 2^61 - 1 decisions: all of the first share, and of the second with nothing left of it
    let harmless = hard::needed_and_forbidden(60).tables;
    let questions = harmless.questions.clone();
    let case = case_of(&harmless, &[&[], &questions, &[]], &[MILLION, 10, 1]);
    let mut out = vec![7; case.match_room];
    let cards = capi::find_batch(case.tables.lend(), &case.lengths, &case.shares, &mut out);
    let atoms = 61;
    assert_eq!(cards.answer(1).number, 14);
    assert_eq!(cards.counts[0] + cards.counts[1], MILLION + 10, "{:?}", cards);
    assert!(cards.counts[0] <= atoms + 1, "{:?}", cards);
    kept(&case, &cards);
}

/// Odd lengths are refused of that table alone: (1, 2), with nothing used; each table is judged by
/// itself, with the places of its own questions.
#[test]
fn faulty_tables_among_right_ones() {
    let filled = counted(0, 4);
    let right = &SAMPLE[..];
    let refused = Answer::refused;
    let three = |table: &[u16], answer: Answer, left: u64| {
        let case = case_of(&sample(), &[right, table, right], &[4, 2, 4]);
        let cards = expect(&case, &[filled, answer, filled], left);
        alone(&case, &cards);
    };
    three(&[5], refused(1, 2), 2);
    three(&[5, 3, 2], refused(1, 2), 2);
    three(&[0; 66], refused(1, 2), 2);
    // the second question of this table, behind the one inclusion
    three(&[5, 3, 2, 6], refused(4, 2), 2);
    three(&[6, 3, 2, 6], refused(4, 1), 2);
    three(&[5, 3, 4, 4], refused(6, 1), 2);
    // 33 questions in one table, 32 in each of eight
    let many: Vec<u16> = [0, 0].repeat(33);
    three(&many, refused(1, 2), 2);
    let eight = case_of(&sample(), &[&many[..64]; 8], &[10; 8]);
    expect(&eight, &[counted(0, 4); 8], 48);
    // a faulty catalogue is refused once for each table, and everything is left over
    let mut catalogue = sample();
    catalogue.concepts[3] = 9;
    let case = case_of(&catalogue, &[right, right, &[]], &[1, 2, 3]);
    expect(&case, &[refused(2, 1); 3], 6);
}

/// 8 of a table whose stretch does not reach: the first that is short, and all behind it; nothing is
/// used. Longer buffers keep their rest.
#[test]
fn stretches_past_the_end() {
    let rows = [[1, 5, 0], [1, 6, 0], [4, 0, 0], [4, 1, 0], [4, 2, 0]];
    let catalogue = Tables::new(&rows, &[[0, 1]], &[], 3);
    let table: &[u16] = &[2, 0, 4, 1];
    let mut case = case_of(&catalogue, &[table; 3], &[20; 3]);
    let one = counted(0, 7);
    for room in 0..14 {
        case.match_room = room;
        let due = |k: usize| if room >= 3 * (k + 1) { one } else { Answer::refused(8, 3) };
        let answers: Vec<Answer> = (0..3).map(due).collect();
        let used: u64 = answers.iter().map(|answer| answer.value).sum();
        let cards = expect(&case, &answers, 60 - used);
        alone(&case, &cards);
    }
    // no blanks: every stretch is empty, and wants nothing
    let ground = Tables::new(&rows[..2], &[[0, 1]], &[], 0);
    let mut case = case_of(&ground, &[&[0, 1], &[1, 0], &[]], &[1; 3]);
    for room in [0, 1, 5] {
        case.match_room = room;
        expect(&case, &[counted(0, 1), counted(10, 0), counted(0, 1)], 1);
    }
}

/// The part list is each table's own: what the right side of one table brings is no part of the next.
#[test]
fn parts_of_each_table() {
    let rows = [[1, 5, 0], [1, 6, 0], [4, 0, 0]];
    let catalogue = Tables::new(&rows, &[], &[], 1);
    let case = case_of(&catalogue, &[&[2, 1], &[2, 0], &[2, 0, 2, 1], &[]], &[9; 4]);
    let mut out = [7; 4];
    let cards = capi::find_batch(case.tables.lend(), &case.lengths, &case.shares, &mut out);
    assert_eq!(out, [1, 1, 3, 0]);
    expect(&case, &[counted(0, 2), counted(0, 2), counted(0, 3), counted(0, 1)], 28);
    alone(&case, &cards);
}

/// A random catalogue and batch, now and then damaged.
fn random_case(random: &mut Random, size: Size) -> Case {
    let mut tables = generate::valid(random, size);
    let pairs = tables.questions.clone();
    let count = random.below(9);
    let mut questions = Vec::new();
    for _ in 0..count {
        let mut table: Vec<u16> = Vec::new();
        for _ in 0..random.below(4) {
            if !pairs.is_empty() {
                let at = 2 * random.below(pairs.len() / 2);
                table.extend(&pairs[at..at + 2]);
            }
        }
        match random.below(12) {
            0 => table.push(0),
            1 => table.extend([tables.concept_count() as u16, 0]),
            _ => {}
        }
        questions.push(table);
    }
    if random.percent(10) {
        tables.concepts.push(1);
    }
    let lists: Vec<&[u16]> = questions.iter().map(|table| &table[..]).collect();
    let shares: Vec<u32> = (0..count).map(|_| random.below(60) as u32).collect();
    let mut case = case_of(&tables, &lists, &shares);
    match random.below(20) {
        0 => drop(case.lengths.pop()),
        1 => case.shares.push(1),
        2 if count > 0 => case.shares[random.below(count)] = MILLION + 1,
        3 if count > 0 => case.lengths[random.below(count)] += 1,
        _ => {}
    }
    if random.percent(20) {
        case.match_room = random.below(case.match_room + 3);
    }
    case
}

/// Against the reference, and each table alone through hc_match_counted.
#[test]
fn random_batches() {
    let seed = seed("batch");
    let mut tally = Tally::new("batch");
    let mut seen = [0; 23];
    for (size, share) in [(Size::Small, 4), (Size::Medium, 6), (Size::Large, 8)] {
        for k in 0..(cases(size) / share).max(1) {
            let case = random_case(&mut Random::for_case(seed, k), size);
            let cards = compare::find_batch(&case);
            seen[usize::from(cards.number)] += 1;
            tally.case();
            tally.note("refused as a whole", cards.number != 0);
            if cards.number == 0 {
                kept(&case, &cards);
                alone(&case, &cards);
                (0..case.lengths.len()).for_each(|k| seen[usize::from(cards.numbers[k])] += 1);
                tally.note("filled and spent", cards.numbers.contains(&14) && cards.counts[0] > 0);
                tally.note("left over", cards.left > 0);
            }
        }
    }
    let all_seen = [0, 1, 4, 8, 10, 14, 20].iter().all(|&number| seen[number] > 0);
    assert!(all_seen || !full_run(), "{:?}", seen);
    tally.finish(&[
        ("refused as a whole", 5..=30),
        ("filled and spent", 2..=60),
        ("left over", 30..=90),
    ]);
}

/// One table changes another's answer only through the amount passed on: with the first table changed,
/// and shares that make up for it, the others are told the same.
#[test]
fn only_the_amount_is_passed_on() {
    let seed = seed("batch, amounts");
    let mut tally = Tally::new("batch, amounts");
    for k in 0..cases(Size::Medium) / 8 {
        let mut random = Random::for_case(seed, k);
        let tables = generate::tiny(&mut random, 12);
        let own = &tables.questions[..];
        let others: [&[u16]; 4] = [own, &own[..2], &[], &[0]];
        let last = random.below(20) as u32;
        let mut seen = Vec::new();
        for first in others {
            let mut case = case_of(&tables, &[first, own], &[1_000, last]);
            let left = 1_000 - compare::find_batch(&case).counts[0];
            // the second table's amount is the same each time
            case.shares[0] -= left;
            let cards = expect_any(&case);
            let mut out = vec![0; case.match_room];
            capi::find_batch(case.tables.lend(), &case.lengths, &case.shares, &mut out);
            let filling = out.split_off(usize::from(tables.variables));
            seen.push((cards.answer(1), filling, cards.left));
        }
        assert!(seen.iter().all(|one| *one == seen[0]), "{:?} for\n{}", seen, tables);
        tally.case();
        tally.note("filled", seen[0].0.number == 0);
        tally.note("spent", seen[0].0.number == 14);
    }
    tally.finish(&[("filled", 5..=80), ("spent", 5..=80)]);
}

fn expect_any(case: &Case) -> Cards {
    let cards = compare::find_batch(case);
    kept(case, &cards);
    cards
}

/// Every set of faults of the tables, in a batch of one and of two tables: the refusal of the table
/// alone.
#[test]
fn every_set_of_faults() {
    for (mut case, chosen) in every_set(&table_faults(false)) {
        let questions = case.tables.questions.clone();
        for count in [1, 2] {
            case.tables.questions = questions.repeat(count);
            case.lengths = vec![questions.len() as u16; count];
            case.shares = vec![200; count];
            case.match_room = 2 * count;
            let cards = compare::find_batch(&case);
            let due = match chosen.first() {
                None => Answer::done(121),
                Some(fault) => Answer::refused(fault.refusal().0, fault.refusal().1),
            };
            (0..count).for_each(|k| assert_eq!(cards.answer(k), due, "{:?}", chosen));
            kept(&case, &cards);
        }
    }
}

/// Two batches in turn, with refused ones between them: each call gives what it gives alone.
#[test]
fn answers_do_not_stick() {
    let seed = seed("batch, in a row");
    for k in 0..cases(Size::Medium) / 16 {
        let mut random = Random::for_case(seed, k);
        let row: Vec<Case> = (0..3).map(|_| random_case(&mut random, Size::Small)).collect();
        let mut refused = row[0].clone();
        refused.shares.push(1);
        refused.lengths.push(1);
        let alone: Vec<Cards> = row.iter().map(compare::find_batch).collect();
        for _ in 0..2 {
            for (case, cards) in row.iter().zip(&alone) {
                assert_eq!(compare::find_batch(case), *cards);
                assert_eq!(compare::find_batch(&refused), Cards::refused(20, 8));
            }
        }
    }
}

/// Tables, lengths and shares may be the same numbers in memory.
#[test]
fn inputs_that_overlap() {
    let numbers = [1, 0, 2, 0];
    let rows = [1, 5, 0, 4, 0, 0];
    let tables = TablesRef {
        concepts: &rows,
        inclusions: &[],
        questions: &numbers[..2],
        roles: &numbers[1..3],
        variables: 1,
    };
    let mut out = [7; 3];
    let cards = capi::find_batch(tables, &numbers[2..], &[2, 0], &mut out);
    assert_eq!((cards.number, cards.answer(0)), (0, counted(0, 2)));
    assert_eq!((cards.answer(1), cards.left, out), (counted(14, 0), 0, [1, 7, 7]));
    assert_eq!((numbers, rows), ([1, 0, 2, 0], [1, 5, 0, 4, 0, 0]));
}
