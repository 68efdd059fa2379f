//! hc_belongs: membership in any given interpretation, and every refusal.

use std::sync::mpsc;
use std::thread;
use std::time::Duration;

use hermitcasket_tests::capi::{self, Answer};
use hermitcasket_tests::compare;
use hermitcasket_tests::faults::{base, every_set, membership_faults};
use hermitcasket_tests::generate;
use hermitcasket_tests::limits::MAX_ELEMENTS;
use hermitcasket_tests::nested::{self, APART, FIRST_ROLE, NAME};
use hermitcasket_tests::random::{cases, seed, Random, Size};
use hermitcasket_tests::reference;
use hermitcasket_tests::tables::{Case, Stock, Tables};
use hermitcasket_tests::tally::Tally;

fn case(tables: &Tables, assignment: &[u64], stock: &Stock) -> Case {
    let mut case = Case::new(tables.clone(), assignment);
    case.stock = stock.clone();
    case
}

/// The entries that each thing belongs to, written here by hand.
fn expect(entries: &[&[usize]], tables: &Tables, assignment: &[u64], stock: &Stock) {
    let members: Vec<Vec<bool>> = entries
        .iter()
        .map(|ids| (0..tables.concept_count()).map(|id| ids.contains(&id)).collect())
        .collect();
    assert_eq!(reference::members(tables, assignment, stock), members, "{}", stock);
    compare::belongs_all(&case(tables, assignment, stock), &members);
}

fn ask(tables: &Tables, assignment: &[u64], stock: &Stock, asked: (u16, u16)) -> Answer {
    let mut case = case(tables, assignment, stock);
    case.asked = asked;
    compare::belongs(&case)
}

/// Each kind of entry, over four things.
#[test]
fn the_kinds_of_entries() {
    // 0 top, 1 and 2 names, 3 "some" of 1, 4 "1 and 2", 5 "some" of 4, 6 "3 and 5", 7 of top
    let rows =
        [[0, 0, 0], [1, 5, 0], [1, 6, 0], [2, 1, 1], [3, 1, 2], [2, 1, 4], [3, 3, 5], [2, 2, 0]];
    let tables = Tables::new(&rows, &[], &[], 0);
    let rows = [
        [0, 0, 5, 0],
        [0, 1, 5, 0],
        [0, 1, 6, 0],
        [1, 2, 1, 0],
        [1, 3, 1, 1],
        [1, 3, 2, 2],
        [1, 1, 1, 3],
        [1, 2, 1, 2],
    ];
    let stock = Stock::new(4, &rows);
    expect(&[&[0, 1], &[0, 1, 2, 4], &[0, 3], &[0, 3, 5, 6, 7]], &tables, &[], &stock);
    let bare = Stock::new(2, &[]);
    expect(&[&[0], &[0]], &tables, &[], &bare);
}

/// A thing linked to itself, a ring, a link to a higher and to a lower thing; and not backwards.
#[test]
fn links_have_a_direction() {
    // "some" of the name by one to four links
    let rows = [[1, 5, 0], [2, 1, 0], [2, 1, 1], [2, 1, 2], [2, 1, 3]];
    let tables = Tables::new(&rows, &[], &[], 0);
    let named = |thing: u16, links: &[[u16; 2]]| {
        let mut rows = vec![[0, thing, 5, 0]];
        rows.extend(links.iter().map(|&[from, to]| [1, from, 1, to]));
        rows
    };
    let own = Stock::new(1, &named(0, &[[0, 0]]));
    expect(&[&[0, 1, 2, 3, 4]], &tables, &[], &own);
    let ring = Stock::new(3, &named(2, &[[0, 1], [1, 2], [2, 0]]));
    expect(&[&[2], &[1, 4], &[0, 3]], &tables, &[], &ring);
    let down = Stock::new(3, &named(0, &[[2, 1], [1, 0]]));
    expect(&[&[0], &[1], &[2]], &tables, &[], &down);
    let fork = Stock::new(3, &named(2, &[[0, 1], [0, 2]]));
    expect(&[&[1], &[], &[0]], &tables, &[], &fork);
}

/// Links are read from the rows only: role pairs, inclusions and questions add nothing.
#[test]
fn nothing_but_the_rows_is_read() {
    let rows = [[1, 5, 0], [1, 6, 0], [2, 1, 0], [2, 2, 0], [2, 3, 0]];
    let pairs = [[1, 2], [2, 3], [3, 2]];
    let tables = Tables::new(&rows, &[[0, 1], [2, 4]], &[[0, 1]], 0).with_roles(&pairs);
    let stock = Stock::new(2, &[[0, 1, 5, 0], [1, 0, 1, 1]]);
    expect(&[&[2], &[0]], &tables, &[], &stock);
    let stock = Stock::new(2, &[[0, 1, 5, 0], [1, 0, 2, 1]]);
    expect(&[&[3], &[0]], &tables, &[], &stock);
}

/// Empty choices are top, and several parts are all asked for; the parts have higher ids than one
/// blank; blanks inside "some" and "and".
#[test]
fn blanks_read_their_choice() {
    // 0 blank, 1 "some" of it, 2 and 3 names, 4 "some" of 3, 5 another blank, 6 "1 and 5"
    let rows = [[4, 0, 0], [2, 9, 0], [1, 5, 0], [1, 6, 0], [2, 8, 3], [4, 1, 0], [3, 1, 5]];
    let tables = Tables::new(&rows, &[[2, 4]], &[], 2);
    // the parts are 2, 3 and 4
    let rows = [[0, 0, 5, 0], [0, 1, 6, 0], [1, 0, 8, 1], [1, 1, 9, 0], [1, 2, 9, 1]];
    let stock = Stock::new(3, &rows);
    let ground: [&[usize]; 3] = [&[2, 4], &[3], &[]];
    let with = |more: [&[usize]; 3]| -> Vec<Vec<usize>> {
        ground.iter().zip(more).map(|(ids, more)| [ids, more].concat()).collect()
    };
    for (choices, more) in [
        ([0, 0], [&[0, 5][..], &[0, 1, 5, 6], &[0, 1, 5, 6]]),
        ([1, 0], [&[0, 5], &[1, 5, 6], &[5]]),
        ([2, 1], [&[5], &[0], &[1]]),
        ([4, 2], [&[0], &[1, 5, 6], &[]]),
        ([5, 4], [&[0, 5], &[1], &[]]),
        ([7, 6], [&[], &[], &[]]),
        ([3, 7], [&[], &[], &[]]),
    ] {
        let entries = with(more);
        let entries: Vec<&[usize]> = entries.iter().map(|ids| &ids[..]).collect();
        expect(&entries, &tables, &choices, &stock);
    }
}

/// 64 parts above the blank, each "some" of the one before: the walk goes up and then down.
#[test]
fn parts_of_higher_ids() {
    let mut rows = vec![[4, 0, 0], [1, 5, 0]];
    rows.extend((1..64).map(|inner| [2, 3, inner]));
    rows.push([2, 3, 0]);
    let tables = Tables::new(&rows, &[[64, 1]], &[], 1);
    // a ring of 63, in which thing k is k steps from the name, and one thing apart
    let mut rows = vec![[0, 0, 5, 0]];
    rows.extend((0..63).map(|k| [1, k, 3, (k + 62) % 63]));
    let stock = Stock::new(64, &rows);
    for position in [0, 1, 31, 62, 63] {
        for (thing, entry) in (0..64).flat_map(|thing| [(thing, 0), (thing, 65)]) {
            let steps = if entry == 0 { position } else { position + 1 };
            let yes = thing < 63 && u64::from(thing) == steps % 63;
            let answer = ask(&tables, &[1 << position], &stock, (entry, thing));
            assert_eq!(answer, Answer::done(u64::from(yes)), "{} {} {}", position, thing, entry);
        }
    }
    let both = ask(&tables, &[1 | 1 << 63], &stock, (0, 0));
    assert_eq!(both, Answer::done(1), "63 steps are one round");
    assert_eq!(ask(&tables, &[1 | 1 << 62], &stock, (0, 0)), Answer::done(0));
}

/// Names and roles are any number; none is taken for one of the tables.
#[test]
fn names_and_roles_past_the_ranges() {
    let rows = [[1, 0, 0], [1, 999, 0], [2, 0, 0], [2, 99, 0], [0, 0, 0], [2, 1, 4]];
    let tables = Tables::new(&rows, &[], &[], 0);
    for more in [1000, 1024, 256, 512, 4096, 16384, 32768, 64536] {
        let stock = Stock::new(1, &[[0, 0, more, 0], [0, 0, 999 + more, 0]]);
        expect(&[&[4]], &tables, &[], &stock);
    }
    for more in [100, 128, 256, 512, 1024, 32768, 65436] {
        let rows = [[1, 1, more, 0], [1, 1, 99 + more, 0], [1, 1, 1 + more, 0]];
        let stock = Stock::new(2, &[&rows[..], &[[0, 0, 0, 0]]].concat());
        expect(&[&[0, 4], &[4]], &tables, &[], &stock);
    }
    let last = Stock::new(1, &[[0, 0, 65535, 0], [1, 0, 65535, 0]]);
    expect(&[&[4]], &tables, &[], &last);
}

/// Every order of the rows, and every row repeated: the same answers.
#[test]
fn order_and_repeats_change_nothing() {
    let seed = seed("belongs, order");
    for k in 0..cases(Size::Small) / 40 {
        let mut random = Random::for_case(seed, k);
        let tables = generate::valid(&mut random, Size::Small);
        let assignment = generate::assignment(&mut random, &tables);
        let stock = generate::stock(&mut random, &tables, Size::Small);
        let members = reference::members(&tables, &assignment, &stock);
        let mut rows: Vec<[u16; 4]> = stock.split().collect();
        rows.sort_unstable();
        let mut orders = vec![rows.clone()];
        rows.dedup();
        orders.push(rows.clone());
        rows.reverse();
        orders.push(rows.clone());
        orders.push([&rows[..], &rows, &rows].concat());
        random.shuffle(&mut rows);
        orders.push(rows);
        for rows in orders {
            let stock = Stock::new(stock.size, &rows);
            compare::belongs_all(&case(&tables, &assignment, &stock), &members);
        }
    }
}

#[test]
fn random_cases_agree() {
    let shares = [10..=60, 10..=60, 25..=70];
    compare::yes_or_no("belongs", generate::belongs_case, compare::belongs, shares);
}

/// Every thing and entry of small tables, in calls one after another; many of larger ones.
#[test]
fn all_pairs_agree() {
    let seed = seed("belongs, all pairs");
    let mut tally = Tally::new("belongs, all pairs");
    for (size, most) in [(Size::Small, 196), (Size::Medium, 60), (Size::Large, 20)] {
        for k in 0..(cases(size) / 8).max(1) {
            let mut random = Random::for_case(seed, k);
            let tables = generate::valid(&mut random, size);
            let assignment = generate::assignment(&mut random, &tables);
            let stock = generate::stock(&mut random, &tables, size);
            let members = reference::members(&tables, &assignment, &stock);
            let mut case = case(&tables, &assignment, &stock);
            let count = tables.concept_count();
            let mut all: Vec<(usize, usize)> =
                (0..members.len() * count).map(|k| (k % count, k / count)).collect();
            random.shuffle(&mut all);
            for (entry, thing) in all.into_iter().take(most) {
                case.asked = (entry as u16, thing as u16);
                let member = members[thing][entry];
                compare::belongs_expecting(&case, Ok(member));
                tally.case();
                tally.note("yes", member);
            }
        }
    }
    tally.finish(&[("yes", 10..=70)]);
}

/// Answers within ten seconds, or the test fails: without a memory of what was asked before, these
/// take longer than anyone waits.
fn in_time(wanted: Answer, label: &str, tables: Tables, stock: Stock, asked: (u16, u16)) {
    let (said, heard) = mpsc::channel();
    thread::spawn(move || {
        let rows = (stock.size, &stock.rows[..]);
        let nothing = vec![u64::MAX >> 62; usize::from(tables.variables)];
        said.send(capi::belongs(tables.lend(), &nothing, rows, asked))
    });
    let answer = heard.recv_timeout(Duration::from_secs(10));
    assert_eq!(answer, Ok(wanted), "{}", label);
}

/// Sixty and 190 nested "some" over two things linked both ways: 2^60 and 2^190 ways through.
#[test]
fn nested_some_over_a_pair_of_things() {
    let links = [[1, 0, 1, 1], [1, 1, 1, 0], [1, 0, 1, 0], [1, 1, 1, 1]];
    let named = [&links[..], &[[0, 1, 5, 0]]].concat();
    for height in [60, 190] {
        let mut rows = vec![[1, 5, 0]];
        rows.extend((0..height).map(|inner| [2, 1, inner]));
        let tables = Tables::new(&rows, &[], &[], 0);
        for (rows, yes) in [(&links[..2], 0), (&links[..], 0), (&named[..], 1)] {
            let label = format!("{} over {} rows", height, rows.len());
            let stock = Stock::new(2, rows);
            in_time(Answer::done(yes), &label, tables.clone(), stock, (height, 0));
        }
    }
}

/// The same through "and" of an entry and itself, alone and between "some", and through blanks that
/// choose two parts below which there are others.
#[test]
fn nested_conjunctions_and_blanks() {
    let links = [[1, 0, 1, 1], [1, 1, 1, 0], [1, 0, 1, 0], [1, 1, 1, 1]];
    for (last, yes) in [([0, 0, 5, 0], 0), ([0, 0, 6, 0], 1)] {
        let rows = [&links[..], &[last, [0, 1, 6, 0]]].concat();
        let stock = Stock::new(2, &rows);
        let mut both = vec![[1, 6, 0]];
        both.extend((0..190).map(|inner| [3, inner, inner]));
        let tables = Tables::new(&both, &[], &[], 0);
        in_time(Answer::done(yes), "and", tables, stock.clone(), (190, 0));
        let mut mixed = vec![[1, 6, 0], [1, 7, 0]];
        mixed.extend((1..95).flat_map(|k| [[2, 1, 2 * k - 1], [3, 2 * k, 2 * k]]));
        let tables = Tables::new(&mixed, &[], &[], 0);
        in_time(Answer::done(0), "and, some", tables, stock.clone(), (189, 0));
        // 0 and 1 names; "some" of a blank, "and" of both, one above the other; two parts
        let mut blanks = vec![[1, 6, 0], [1, 5, 0], [4, 0, 0]];
        blanks.extend((1..94).flat_map(|k| [[2, 1, 2 * k], [3, 2 * k + 1, 2 * k + 1]]));
        let tables = Tables::new(&blanks, &[[0, 1]], &[], 1);
        in_time(Answer::done(0), "blanks", tables, stock, (188, 0));
    }
}

/// A chain of 192 things and 190 nested "some": the name is as many links away as there are "some".
#[test]
fn a_chain_of_192_things() {
    let tables = nested::tower(190);
    let mut rows: Vec<[u16; 4]> = (0..191).map(|k| [1, k, FIRST_ROLE, k + 1]).collect();
    rows.push([0, 190, NAME, 0]);
    for order in 0..3 {
        let stock = Stock::new(192, &rows);
        for (entry, thing) in [(191, 0), (191, 1), (190, 1), (1, 190), (2, 190), (96, 95), (95, 95)]
        {
            let yes = entry + thing == 191;
            let answer = ask(&tables, &[], &stock, (entry, thing));
            assert_eq!(answer, Answer::done(u64::from(yes)), "{} {}", entry, thing);
        }
        Random::new(order).shuffle(&mut rows);
    }
}

/// 128 nested "some", a blank, and 62 more in the part that it chooses: through every entry.
#[test]
fn the_deepest_walk() {
    let tables = nested::tower_over_choice();
    let mut choice = [0];
    assert_eq!(capi::find(tables.lend(), &mut choice), Answer::done(0));
    assert_eq!(choice, [1 << 62]);
    for named in [190, 189, 0] {
        let mut rows: Vec<[u16; 4]> = (0..191).map(|k| [1, k, FIRST_ROLE, k + 1]).collect();
        rows.push([0, named, NAME, 0]);
        let stock = Stock::new(192, &rows);
        for (entry, thing, away) in [(191, 0, 190), (190, 0, 189), (191, 1, 191), (63, 127, 189)] {
            let answer = ask(&tables, &choice, &stock, (entry, thing));
            assert_eq!(answer, Answer::done(u64::from(named == away)), "{} {}", entry, named);
        }
    }
}

/// 190 nested "some" over 192 things, all linked to one another but for one that is linked to none.
#[test]
fn many_rows() {
    let tables = nested::tower(190);
    for named in [APART, 8] {
        let stock = nested::crowd(&mut Random::new(9), 40_000, named);
        assert_eq!(stock.rows.len(), 4 * (191 * 191 + 1));
        let mut case = case(&tables, &[], &stock);
        for (entry, thing) in [(191, 0), (191, APART), (2, 191), (2, APART), (1, named), (1, 9)] {
            let member = if entry == 1 { thing == named } else { thing != APART && named == 8 };
            case.asked = (entry, thing);
            compare::belongs_expecting(&case, Ok(member));
        }
    }
}

/// No things, over 192, and ragged rows, whatever else is wrong behind it.
#[test]
fn numbers_of_things_and_rows() {
    let tables = Tables::new(&[[0, 0, 0], [1, 5, 0]], &[], &[], 0);
    let ask = |size: u16, rows: &[u16], asked: (u16, u16)| {
        ask(&tables, &[], &Stock { size, rows: rows.to_vec() }, asked)
    };
    for rows in [&[][..], &[0, 0, 5, 0], &[0, 0, 5, 1], &[7, 7, 7]] {
        for size in [0, 193, 194, 255, 256, 384, 448, 32768, 65535] {
            for asked in [(0, 0), (9, 0), (0, 300), (9, 300)] {
                assert_eq!(ask(size, rows, asked), Answer::refused(1, 0), "{} {:?}", size, rows);
            }
        }
    }
    for size in [1, 2, 191, MAX_ELEMENTS as u16] {
        assert_eq!(ask(size, &[], (0, size - 1)), Answer::done(1), "{}", size);
        assert_eq!(ask(size, &[0, size - 1, 5, 0], (1, size - 1)), Answer::done(1), "{}", size);
        for extra in 1..4 {
            let rows = vec![9; 4 + extra];
            assert_eq!(ask(size, &rows, (9, 300)), Answer::refused(1, 0), "{} more", extra);
            assert_eq!(ask(size, &rows[..extra], (0, 0)), Answer::refused(1, 0), "{}", extra);
        }
    }
}

/// Another kind, a thing that is not there in either field, a last number of a name that is not 0.
#[test]
fn rows_of_another_form() {
    let tables = Tables::new(&[[0, 0, 0], [1, 5, 0]], &[], &[], 0);
    let bad = [
        [2, 0, 0, 0],
        [3, 0, 0, 0],
        [255, 0, 0, 0],
        [256, 0, 0, 0],
        [257, 0, 0, 0],
        [65535, 0, 0, 0],
        [0, 3, 5, 0],
        [0, 256, 5, 0],
        [0, 65535, 5, 0],
        [0, 0, 5, 1],
        [0, 0, 5, 2],
        [0, 0, 5, 256],
        [0, 0, 5, 65535],
        [1, 3, 0, 0],
        [1, 0, 0, 3],
        [1, 0, 0, 256],
        [1, 65535, 0, 0],
        [1, 0, 0, 65535],
        [1, 3, 0, 3],
    ];
    for row in bad {
        for place in [0, 1, 5] {
            // what is asked for is judged later, and of the rows the lowest wins
            for asked in [(1, 0), (2, 0), (0, 3), (65535, 65535)] {
                let mut rows = vec![[0, 2, 65535, 0]; place];
                rows.extend([row, [1, 2, 65535, 2], [9, 9, 9, 9]]);
                let answer = ask(&tables, &[], &Stock::new(3, &rows), asked);
                assert_eq!(answer, Answer::refused(2, place as u64), "{:?}", row);
            }
        }
    }
    for row in [[0, 2, 0, 0], [0, 0, 65535, 0], [1, 2, 65535, 2], [1, 0, 0, 2], [1, 2, 0, 0]] {
        let answer = ask(&tables, &[], &Stock::new(3, &[row]), (0, 0));
        assert_eq!(answer, Answer::done(1), "{:?}", row);
    }
}

/// A row past what sixteen bits count.
#[test]
fn places_past_sixteen_bits() {
    let tables = Tables::new(&[[0, 0, 0], [1, 5, 0]], &[], &[], 0);
    for place in [16_384, 65_535, 65_536, 65_540, 200_000] {
        let mut rows = vec![[0, 0, 6, 0]; place];
        rows.push([0, 0, 5, 0]);
        let stock = Stock::new(1, &rows);
        assert_eq!(ask(&tables, &[], &stock, (1, 0)), Answer::done(1), "{}", place);
        rows[place][3] = 1;
        let stock = Stock::new(1, &rows);
        assert_eq!(ask(&tables, &[], &stock, (1, 0)), Answer::refused(2, place as u64));
    }
}

/// The entry is judged before the thing, and both last.
#[test]
fn entries_and_things_that_are_not_there() {
    let tables = Tables::new(&[[0, 0, 0], [1, 5, 0]], &[], &[], 0);
    let stock = Stock::new(3, &[[0, 2, 5, 0]]);
    for entry in [2, 3, 192, 256, 257, 65535] {
        for thing in [0, 2, 3, 65535] {
            let answer = ask(&tables, &[], &stock, (entry, thing));
            assert_eq!(answer, Answer::refused(4, 0), "{} {}", entry, thing);
        }
    }
    for thing in [3, 4, 192, 256, 258, 65535] {
        assert_eq!(ask(&tables, &[], &stock, (1, thing)), Answer::refused(4, 1), "{}", thing);
    }
    assert_eq!(ask(&tables, &[], &stock, (1, 2)), Answer::done(1));
    // more things than entries, and no entries at all
    assert_eq!(ask(&tables, &[], &Stock::new(192, &[]), (1, 191)), Answer::done(0));
    let none = Tables::default();
    assert_eq!(ask(&none, &[], &stock, (0, 0)), Answer::refused(4, 0));
    assert_eq!(ask(&none, &[], &Stock::new(3, &[[2, 0, 0, 0]]), (0, 0)), Answer::refused(2, 0));
    assert_eq!(ask(&none, &[], &Stock::new(0, &[]), (0, 0)), Answer::refused(1, 0));
}

/// Every set of faults at once: 1 to 6, 16, 7, 9, and then 1, 2, 4 of what is given. The pair is
/// not asked for.
#[test]
fn every_set_of_faults() {
    for (mut case, chosen) in every_set(&membership_faults()) {
        case.pair = (999, 999);
        let wanted = chosen.first().map_or(Answer::done(1), |fault| {
            let (number, place) = fault.refusal();
            Answer::refused(number, place)
        });
        assert_eq!(compare::belongs(&case), wanted, "{:?} in\n{}", chosen, case);
    }
}

/// A call leaves nothing behind: one interpretation, another, a refused one, and the first again.
#[test]
fn calls_do_not_touch_each_other() {
    let seed = seed("belongs, in a row");
    let mut tally = Tally::new("belongs, in a row");
    for k in 0..cases(Size::Medium) {
        let mut random = Random::for_case(seed, k);
        let tables = generate::valid(&mut random, Size::Small);
        tally.case();
        tally.note("no entries", tables.concept_count() == 0);
        if tables.concept_count() == 0 {
            continue;
        }
        let one = generate::stock(&mut random, &tables, Size::Small);
        let two = Stock { size: one.size, ..generate::stock(&mut random, &tables, Size::Small) };
        let asked = (random.below(tables.concept_count()) as u16, 0);
        let first = generate::assignment(&mut random, &tables);
        let second = generate::assignment(&mut random, &tables);
        let refused = Stock::new(1, &[[1, 1, 1, 1]]);
        let mut answers = Vec::new();
        for stock in [&one, &two, &refused, &one] {
            for assignment in [&first, &second] {
                answers.push(ask(&tables, assignment, stock, asked));
            }
        }
        assert_eq!(answers[..2], answers[6..], "{}", tables);
        tally.note("other answers", answers[..2] != answers[2..4]);
    }
    tally.finish(&[("no entries", 0..=10), ("other answers", 1..=100)]);
    let good = base();
    assert_eq!(compare::belongs(&good), Answer::done(1));
}
