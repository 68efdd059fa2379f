//! Roles above roles (02, A.6): through every operation, in chains and circles, at the limits.

use hermitcasket_tests::capi::{self, Answer};
use hermitcasket_tests::compare;
use hermitcasket_tests::generate;
use hermitcasket_tests::limits::*;
use hermitcasket_tests::planted;
use hermitcasket_tests::random::{cases, seed, Random, Size};
use hermitcasket_tests::reference::derivation::{self, Line};
use hermitcasket_tests::reference::model::Canonical;
use hermitcasket_tests::reference::{self, atoms, matching, Refusal};
use hermitcasket_tests::tables::{Case, Concept, Tables};
use hermitcasket_tests::tally::Tally;

const NONE: Refusal = Refusal { number: 10, place: 0 };

/// One pair asked of each operation that answers it: decide, the table, the writer, the checker.
fn expect(holds: bool, tables: &Tables, pair: (u16, u16)) {
    let assignment = vec![0; usize::from(tables.variables)];
    let mut case = Case::new(tables.clone(), &assignment);
    case.pair = pair;
    assert_eq!(compare::decide(&case), Answer::done(u64::from(holds)), "for\n{}", case);
    compare::table(&case);
    let mut rows = vec![0; case.table_room];
    capi::subsumption_table(tables.lend(), &assignment, &mut rows);
    let byte = rows[usize::from(pair.0) * ROW_BYTES + usize::from(pair.1) / 8];
    assert_eq!(byte >> (pair.1 % 8) & 1 == 1, holds, "for\n{}", case);
    let (answer, lines) = compare::derive(&case);
    assert_eq!(answer.number, if holds { 0 } else { 11 }, "for\n{}", case);
    case.lines = lines;
    let wanted = if holds { Answer::done(0) } else { Answer::refused(12, 0) };
    assert_eq!(compare::check_derivation(&case), wanted, "for\n{}", case);
}

/// One name, and "some" of it by each of these roles: id k + 1 is by role k of the list.
fn over_one_name(roles: &[u16], pairs: &[[u16; 2]]) -> Tables {
    let mut rows = vec![[1, 5, 0]];
    rows.extend(roles.iter().map(|&role| [2, role, 0]));
    Tables::new(&rows, &[], &[], 0).with_roles(pairs)
}

/// Narrow on the left, wide on the right, and never the other way round.
#[test]
fn a_narrow_link_is_a_wide_one() {
    for (narrow, wide) in [(1, 2), (2, 1), (0, 99), (99, 0), (63, 64), (64, 63)] {
        let tables = over_one_name(&[narrow, wide, 50], &[[narrow, wide]]);
        expect(true, &tables, (1, 2));
        expect(false, &tables, (2, 1));
        for (left, right) in [(1, 3), (3, 1), (2, 3), (3, 2)] {
            expect(false, &tables, (left, right));
        }
        // without the pair, or with it for another role, neither
        for pairs in [vec![], vec![[narrow, 51]], vec![[51, wide]], vec![[narrow, narrow]]] {
            let tables = over_one_name(&[narrow, wide], &pairs);
            expect(false, &tables, (1, 2));
            expect(false, &tables, (2, 1));
        }
    }
}

/// Inner below inner is still asked for, and a wide role of a narrower inner entry is no help.
#[test]
fn the_inner_entries_count_too() {
    // 0 and 1 names, 0 below 1; 2 and 3 by the narrow role, 4 and 5 by the wide one
    let rows = [[1, 5, 0], [1, 6, 0], [2, 1, 0], [2, 1, 1], [2, 2, 0], [2, 2, 1]];
    let tables = Tables::new(&rows, &[[0, 1]], &[], 0).with_roles(&[[1, 2]]);
    let yes = [(2, 3), (2, 4), (2, 5), (3, 5), (4, 5)];
    for (left, right) in (2..6).flat_map(|l| (2..6).map(move |r| (l, r))) {
        expect(left == right || yes.contains(&(left, right)), &tables, (left, right));
    }
}

/// An inclusion that asks for the wide role takes the narrow one, inside "some" too; one that gives
/// the narrow role gives the wide one. Neither the other way round.
#[test]
fn inclusions_read_wide_roles() {
    // 0 and 1 names; 2 narrow over 0, 3 wide over 0; 4 and 5 "some" of 2 and of 1; 6 "0 and 2"
    let rows = [[1, 5, 0], [1, 6, 0], [2, 1, 0], [2, 2, 0], [2, 7, 2], [2, 7, 1], [3, 0, 2]];
    let asks = |inclusion| Tables::new(&rows, &[inclusion], &[], 0).with_roles(&[[1, 2]]);
    let wide_asked = asks([3, 1]);
    for pair in [(2, 1), (3, 1), (4, 5), (6, 1)] {
        expect(true, &wide_asked, pair);
    }
    let narrow_asked = asks([2, 1]);
    expect(true, &narrow_asked, (4, 5));
    expect(false, &narrow_asked, (3, 1));
    let narrow_given = asks([1, 2]);
    expect(true, &narrow_given, (1, 3));
    let wide_given = asks([1, 3]);
    expect(false, &wide_given, (1, 2));
    expect(false, &wide_given, (5, 4));
}

/// The role numbers of a chain, far apart and in no order.
fn chain_roles(count: usize) -> Vec<u16> {
    (0..count).map(|k| (37 * k % 100) as u16).collect()
}

/// Each with the next one, in the order of the chain, against it, and in two others.
fn orders(roles: &[u16]) -> Vec<Vec<[u16; 2]>> {
    let straight: Vec<[u16; 2]> = roles.windows(2).map(|two| [two[0], two[1]]).collect();
    let mut all = vec![straight.clone(); 4];
    all[1].reverse();
    Random::new(6).shuffle(&mut all[2]);
    // every other pair first
    all[3] =
        straight.iter().step_by(2).chain(straight.iter().skip(1).step_by(2)).copied().collect();
    all
}

/// 32 pairs, 33 roles: the first counts as the last, and each as the later ones only.
#[test]
fn chains_of_32() {
    let roles = chain_roles(MAX_ROLE_PAIRS + 1);
    for pairs in orders(&roles) {
        assert_eq!(pairs.len(), MAX_ROLE_PAIRS);
        let tables = over_one_name(&roles, &pairs);
        for pair in [(1, 33), (1, 2), (32, 33), (17, 18), (5, 30)] {
            expect(true, &tables, pair);
            expect(false, &tables, (pair.1, pair.0));
        }
        // every pair of the 33 existentials, and the name itself
        let marks = 1 + 33 * 34 / 2;
        assert_eq!(compare::table(&Case::new(tables.clone(), &[])), Answer::done(marks));
        // the same where no entry has a role in between
        let ends = over_one_name(&[roles[0], roles[32]], &pairs);
        expect(true, &ends, (1, 2));
        expect(false, &ends, (2, 1));
        // one pair fewer cuts the chain where it was
        for gap in [0, 15, 31] {
            let mut cut = pairs.clone();
            cut.retain(|pair| pair[0] != roles[gap]);
            let tables = over_one_name(&roles, &cut);
            expect(false, &tables, (1, 33));
            expect(false, &tables, (gap as u16 + 1, gap as u16 + 2));
            expect(false, &over_one_name(&[roles[0], roles[32]], &cut), (1, 2));
        }
    }
}

/// A tower of "some" by the first role below one by the last, 32 storeys high.
#[test]
fn chains_inside_towers() {
    let roles = chain_roles(MAX_ROLE_PAIRS + 1);
    let mut rows = vec![[1, 5, 0], [1, 5, 0]];
    for k in 0..32 {
        let (narrow, wide) = (roles[k / 2], roles[32 - k / 2]);
        rows.extend([[2, narrow, 2 * k as u16], [2, wide, 2 * k as u16 + 1]]);
    }
    for pairs in orders(&roles) {
        let tables = Tables::new(&rows, &[], &[], 0).with_roles(&pairs);
        expect(true, &tables, (64, 65));
        expect(false, &tables, (65, 64));
    }
}

/// In a circle every role counts as every other; beside it, only what leads in or out.
#[test]
fn circles() {
    for count in [1, 2, 3, 31, 32] {
        let roles = chain_roles(count);
        let mut pairs: Vec<[u16; 2]> =
            (0..count).map(|k| [roles[k], roles[(k + 1) % count]]).collect();
        for _ in 0..3 {
            let tables = over_one_name(&roles, &pairs);
            let last = count as u16;
            for pair in [(1, last), (last, 1), (1, 1), (last / 2 + 1, 1)] {
                expect(true, &tables, pair);
            }
            let marks = 1 + (count * count) as u64;
            assert_eq!(compare::table(&Case::new(tables, &[])), Answer::done(marks));
            // the same where no entry has a role in between
            let two = over_one_name(&[roles[count / 2], roles[count - 1]], &pairs);
            expect(true, &two, (1, 2));
            expect(true, &two, (2, 1));
            Random::new(count as u64).shuffle(&mut pairs);
        }
    }
    // 10 leads into the circle of 1, 2 and 3, and 20 is led to
    let tables = over_one_name(&[10, 1, 2, 3, 20], &[[3, 20], [1, 2], [2, 3], [3, 1], [10, 2]]);
    for (left, right) in (1..6).flat_map(|l| (1..6).map(move |r| (l, r))) {
        let inside = |id: u16| (2..5).contains(&id);
        let holds = left <= right || inside(left) && inside(right);
        expect(holds, &tables, (left, right));
    }
}

/// Equal pairs say nothing, repeated ones nothing new, in any place.
#[test]
fn equal_and_repeated_pairs() {
    let roles = [1, 2, 3];
    let once = over_one_name(&roles, &[[1, 2], [2, 3]]);
    let equal = [[1, 1], [2, 2], [99, 99], [0, 0]];
    let repeated = [[1, 2], [2, 3], [1, 2], [1, 3], [2, 3]];
    let without = over_one_name(&roles, &equal);
    for pair in (0..4).flat_map(|l| (0..4).map(move |r| (l, r))) {
        let holds = pair.0 == pair.1 || pair.0 > 0 && pair.0 < pair.1;
        expect(holds, &once, pair);
        expect(holds, &over_one_name(&roles, &repeated), pair);
        expect(holds, &over_one_name(&roles, &[&repeated[..], &equal].concat()), pair);
        expect(holds, &over_one_name(&roles, &[&equal[..], &repeated].concat()), pair);
        expect(pair.0 == pair.1, &without, pair);
    }
    // 32 times the same pair
    expect(true, &over_one_name(&roles, &[[1, 2]; 32]), (1, 2));
    expect(false, &over_one_name(&roles, &[[1, 2]; 32]), (2, 1));
}

/// 0 a name, 1 "some" by the narrow role, 2 by one between, 3 by the wide one, 4 by another.
fn checker_case(lines: &[Line]) -> Case {
    let tables = over_one_name(&[1, 2, 3, 4], &[[2, 3], [1, 2], [5, 3], [3, 6]]);
    let mut case = Case::new(tables, &[]);
    let last = lines[lines.len() - 1];
    case.pair = (last[1], last[2]);
    case.lines = lines.concat();
    case
}

/// Rule 5 the wrong way round is refused at its line, wherever that stands.
#[test]
fn rule_5_has_the_narrow_role_left() {
    let start: Line = [1, 0, 0, 0];
    for (left, right) in (1..5).flat_map(|l| (1..5).map(move |r| (l, r))) {
        let line: Line = [5, left, right, 0];
        let right_way = left == right || left < right && right < 4;
        let at = |place| if right_way { Answer::done(0) } else { Answer::refused(12, place) };
        assert_eq!(compare::check_derivation(&checker_case(&[start, line])), at(1), "{:?}", line);
        let behind = [start, [5, 1, 3, 0], [5, 2, 3, 0], line];
        assert_eq!(compare::check_derivation(&checker_case(&behind)), at(3), "{:?}", line);
        let before = [start, line, [5, 1, 2, 0]];
        assert_eq!(compare::check_derivation(&checker_case(&before)), at(1), "{:?}", line);
        // the premise is needed, and there is no extra
        let alone = compare::check_derivation(&checker_case(&[line]));
        assert_eq!(alone, Answer::refused(12, 0), "{:?}", line);
        let extra = checker_case(&[start, [5, left, right, 1]]);
        assert_eq!(compare::check_derivation(&extra), Answer::refused(12, 1), "{:?}", line);
        // rule 1 joins no "some" entries, also of one role in two
        if left != right {
            let same = checker_case(&[[1, left, right, 0]]);
            assert_eq!(compare::check_derivation(&same), Answer::refused(12, 0), "{:?}", line);
        }
    }
}

/// A right derivation by rule 5 is refused at its line once the pair is gone or turned round.
#[test]
fn derivations_need_their_role_pairs() {
    let seed = seed("roles, derivations without pairs");
    let mut tally = Tally::new("roles, derivations without pairs");
    for k in 0..cases(Size::Small) / 12 {
        let mut random = Random::for_case(seed, k);
        let tables = generate::valid(&mut random, Size::Small);
        let assignment = generate::assignment(&mut random, &tables);
        let chosen = atoms::chosen(&tables, &assignment);
        let closure = derivation::closure(&tables, &chosen, &mut random);
        let widened = |line: &&Line| match (line[0], derivation::pair(**line)) {
            (5, (left, right)) => tables.row(left)[1] != tables.row(right)[1],
            _ => false,
        };
        tally.case();
        let last = match closure.iter().rfind(widened) {
            Some(&line) => line,
            None => continue,
        };
        let lines = derivation::cut_down(&tables, &chosen, &closure, derivation::pair(last));
        let mut case = Case::new(tables.clone(), &assignment);
        case.pair = (last[1], last[2]);
        case.lines = lines.concat();
        assert_eq!(compare::check_derivation(&case), Answer::done(0), "{}", case);
        tally.note("by a wider role", true);
        case.tables.roles.clear();
        let answer = compare::check_derivation(&case);
        let first = lines.iter().position(|line| widened(&line)).expect("one such line");
        assert_eq!(answer, Answer::refused(12, first as u64), "{}", case);
        // turned round, circles stay as they are
        case.tables.roles = tables.role_pairs().flat_map(|(r, s)| [s, r]).collect();
        let turned = compare::check_derivation(&case);
        tally.note("refused turned round", turned.number == 12);
    }
    tally.finish(&[("by a wider role", 5..=70), ("refused turned round", 3..=60)]);
}

/// Pairs that say nothing of the entries: equal ones, or a role on either side that no entry has.
fn idle_pairs(random: &mut Random, tables: &Tables) -> Vec<[u16; 2]> {
    let used = |role: &u16| (0..tables.concept_count()).any(|id| tables.row(id)[..2] == [2, *role]);
    let (known, others): (Vec<u16>, Vec<u16>) = (0..=MAX_ROLE).partition(used);
    let kind = if known.is_empty() { 1 } else { random.below(4) };
    let pair = |random: &mut Random| match kind {
        0 => [*random.pick(&known); 2],
        1 => [*random.pick(&others), *random.pick(&others)],
        2 => [*random.pick(&others), *random.pick(&known)],
        _ => [*random.pick(&known), *random.pick(&others)],
    };
    (0..random.between(1, MAX_ROLE_PAIRS)).map(|_| pair(random)).collect()
}

/// Pairs that say nothing of the entries leave every answer as it is without.
#[test]
fn no_pairs_is_as_before() {
    let seed = seed("roles, none");
    for (size, share) in [(Size::Small, 8), (Size::Medium, 10), (Size::Large, 30)] {
        for k in 0..(cases(size) / share).max(1) {
            let mut random = Random::for_case(seed, k);
            let mut tables = generate::valid(&mut random, size);
            tables.roles.clear();
            let choices = generate::assignment(&mut random, &tables);
            let idle = tables.clone().with_roles(&idle_pairs(&mut random, &tables));
            let (one, two) = (Case::new(tables, &choices), Case::new(idle, &choices));
            assert_eq!(compare::table(&one), compare::table(&two), "{}", two);
            assert_eq!(compare::atoms(&one), compare::atoms(&two), "{}", two);
            let found = reference::find(&one.tables, one.match_room);
            compare::find_expecting(&one, found.clone());
            compare::find_expecting(&two, found);
        }
    }
}

/// Which blanks an entry uses and which ids are parts does not depend on the role pairs: "some" by
/// roles that count as one another are no twins.
#[test]
fn role_pairs_make_no_twins() {
    let circle = [[1, 2], [2, 1]];
    let rows = [[1, 5, 0], [2, 1, 0], [2, 2, 0], [4, 0, 0], [2, 1, 3]];
    let tables = Tables::new(&rows, &[[1, 2]], &[], 1).with_roles(&circle);
    let mut out = [0; ATOM_ROOM];
    assert_eq!(capi::atoms(tables.lend(), &mut out), Answer::done(3));
    assert_eq!(out[..3], [0, 1, 2]);
    let seed = seed("roles, parts");
    for (size, share) in [(Size::Small, 8), (Size::Medium, 8), (Size::Large, 8)] {
        for k in 0..(cases(size) / share).max(1) {
            let mut random = Random::for_case(seed, k);
            let with = generate::valid(&mut random, size);
            let without = Tables { roles: Vec::new(), ..with.clone() };
            let (mut one, mut two) = ([0; ATOM_ROOM], [0; ATOM_ROOM]);
            let answer = capi::atoms(with.lend(), &mut one);
            assert_eq!(answer, capi::atoms(without.lend(), &mut two), "{}", with);
            assert_eq!(one, two, "{}", with);
            for id in 0..with.concept_count() as u16 {
                let set = capi::blanks(with.lend(), id);
                assert_eq!(set, capi::blanks(without.lend(), id), "{}", with);
            }
        }
    }
}

/// 33 pairs are refused and 32 are not, in every operation; ragged lists too.
#[test]
fn limits() {
    let top = Tables::new(&[[0, 0, 0]], &[], &[], 0);
    for count in 0..=MAX_ROLE_PAIRS {
        let tables = top.clone().with_roles(&vec![[99, 0]; count]);
        everywhere(Answer::done(0), &tables);
    }
    for count in [33, 34, 64, 128, 256, 288, 32768, 65536, 65536 + 32] {
        everywhere(Answer::refused(1, 4), &top.clone().with_roles(&vec![[0, 0]; count]));
        // the count comes before the roles themselves
        everywhere(Answer::refused(1, 4), &top.clone().with_roles(&vec![[100, 100]; count]));
    }
    for numbers in [1, 3, 31, 63, 65, 67] {
        let mut tables = top.clone();
        tables.roles.resize(numbers, 0);
        everywhere(Answer::refused(1, 4), &tables);
        tables.roles[0] = 100;
        everywhere(Answer::refused(1, 4), &tables);
    }
}

/// Every operation answers with this refusal, or none refuses.
fn everywhere(wanted: Answer, tables: &Tables) {
    let assignment = vec![0; usize::from(tables.variables)];
    let mut case = Case::new(tables.clone(), &assignment);
    case.lines = vec![1, 0, 0, 0];
    case.stock.size = 1;
    case.held = vec![0; case.table_room];
    // an id is below itself, so there is never an interpretation to show
    let shown = if wanted.number == 0 { Answer::refused(15, 0) } else { wanted };
    assert_eq!(compare::show(&case), shown, "{}", case);
    let answers = [
        compare::check(&case),
        compare::atoms(&case),
        compare::blanks(&case, 0),
        compare::table(&case),
        compare::decide(&case),
        compare::find(&case),
        compare::derive(&case).0,
        compare::check_derivation(&case),
        compare::belongs(&case),
        compare::update_table(&case),
        compare::renumber(&case),
    ];
    for (k, answer) in answers.into_iter().enumerate() {
        assert_eq!((answer.number, answer.place), (wanted.number, wanted.place), "{}: {}", k, case);
    }
    if tables.variables > 0 {
        let answer = compare::chosen(&case);
        assert_eq!((answer.number, answer.place), (wanted.number, wanted.place), "{}", case);
    }
}

/// Place 4 is tested last within check 1, and before check 2.
#[test]
fn the_roles_are_the_last_of_check_1() {
    let mut tables = Tables::new(&[[5, 0, 0]], &[[9, 9]], &[[9, 9]], 8);
    tables.roles.push(0);
    everywhere(Answer::refused(1, 4), &tables);
    tables.variables = 9;
    everywhere(Answer::refused(1, 3), &tables);
    tables.questions.push(0);
    everywhere(Answer::refused(1, 2), &tables);
    tables.inclusions.push(0);
    everywhere(Answer::refused(1, 1), &tables);
    tables.concepts.push(0);
    everywhere(Answer::refused(1, 0), &tables);
    // the same with too many pairs, each fault beside it alone
    let many = |tables: Tables| tables.with_roles(&[[0, 0]; 33]);
    let tops = |count: usize| vec![[0, 0, 0]; count];
    everywhere(Answer::refused(1, 0), &many(Tables::new(&tops(193), &[], &[], 0)));
    everywhere(Answer::refused(1, 1), &many(Tables::new(&tops(1), &[[0, 0]; 97], &[], 0)));
    everywhere(Answer::refused(1, 2), &many(Tables::new(&tops(1), &[], &[[0, 0]; 33], 0)));
    everywhere(Answer::refused(1, 3), &many(Tables::new(&tops(1), &[], &[], 9)));
    everywhere(Answer::refused(1, 4), &many(Tables::new(&[[1, 1000, 0]], &[], &[], 0)));
}

/// 99 is the last role; the place is the lowest pair that has a higher one on either side.
#[test]
fn roles_99_and_100() {
    let top = Tables::new(&[[0, 0, 0]], &[], &[], 1);
    everywhere(Answer::done(0), &top.clone().with_roles(&[[99, 99]]));
    for role in [100, 101, 127, 128, 255, 256, 355, 32768, 65535] {
        for bad in [[role, 0], [0, role], [role, role], [99, role]] {
            for place in [0, 1, 31] {
                let mut pairs = vec![[99, 0]; place];
                pairs.push(bad);
                let wanted = Answer::refused(16, place as u64);
                everywhere(wanted, &top.clone().with_roles(&pairs));
                if place < 31 {
                    pairs.push([65535, 65535]);
                    everywhere(wanted, &top.clone().with_roles(&pairs));
                }
            }
        }
    }
}

/// 16 comes after each of 1 to 6 and before 7, and so before 9 and 8.
#[test]
fn the_order_around_16() {
    let bad = |tables: Tables| tables.with_roles(&[[0, 0], [100, 0]]);
    let blank = [[4, 0, 0], [0, 0, 0]];
    everywhere(Answer::refused(1, 3), &bad(Tables::new(&blank, &[], &[], 9)));
    everywhere(Answer::refused(2, 1), &bad(Tables::new(&[[0, 0, 0], [2, 100, 0]], &[], &[], 0)));
    everywhere(Answer::refused(3, 0), &bad(Tables::new(&[[2, 99, 0]], &[], &[], 0)));
    everywhere(Answer::refused(4, 1), &bad(Tables::new(&blank, &[[1, 1]], &[[2, 0]], 1)));
    everywhere(Answer::refused(5, 0), &bad(Tables::new(&blank, &[[0, 1]], &[], 1)));
    everywhere(Answer::refused(6, 1), &bad(Tables::new(&blank, &[], &[[0, 1], [0, 0]], 1)));
    let names: Vec<[u16; 3]> = (0..65).map(|name| [1, name, 0]).collect();
    let inclusions: Vec<[u16; 2]> = (0..65).map(|id| [id, id]).collect();
    let seven = Tables::new(&names, &inclusions, &[], 1);
    everywhere(Answer::refused(7, 64), &seven.clone().with_roles(&[[99, 98]]));
    everywhere(Answer::refused(16, 1), &bad(seven));
    // a pair given alone is judged within check 4
    let mut case = Case::new(bad(Tables::new(&blank, &[], &[], 1)), &[0]);
    case.pair = (0, 2);
    assert_eq!(compare::decide(&case), Answer::refused(4, 0));
    assert_eq!(compare::blanks(&case, 2), Answer::refused(4, 0));
    assert_eq!(compare::derive(&case).0, Answer::refused(4, 0));
    assert_eq!(compare::check_derivation(&case), Answer::refused(4, 0));
    assert_eq!(compare::show(&case), Answer::refused(4, 0));
    case.pair = (0, 1);
    case.assignment = vec![1, 1];
    case.told = vec![9];
    case.order = vec![9];
    case.asked = (2, 2);
    case.table_room = 0;
    case.line_room = 0;
    case.match_room = 0;
    case.chosen_room = 0;
    for answer in [
        compare::decide(&case),
        compare::table(&case),
        compare::find(&case),
        compare::chosen(&case),
        compare::derive(&case).0,
        compare::check_derivation(&case),
        compare::show(&case),
        compare::belongs(&case),
        compare::update_table(&case),
        compare::renumber(&case),
    ] {
        assert_eq!(answer, Answer::refused(16, 1), "{}", case);
    }
    // a blank's number is judged within check 2
    case.variable = 1;
    assert_eq!(compare::chosen(&case), Answer::refused(2, 0));
}

/// More pairs, more that is below; and neither their order nor repeats change a bit.
#[test]
fn more_pairs_only_add() {
    let seed = seed("roles, more pairs");
    let mut tally = Tally::new("roles, more pairs");
    for (size, share) in [(Size::Small, 4), (Size::Medium, 6), (Size::Large, 10)] {
        for k in 0..(cases(size) / share).max(1) {
            let mut random = Random::for_case(seed, k);
            let mut tables = generate::valid(&mut random, size);
            tables.roles.clear();
            let choices = generate::assignment(&mut random, &tables);
            let mut before = rows(&tables, &choices);
            let (mut grown, mut wide) = (false, false);
            for _ in 0..3 {
                let more = random.between(1, 8);
                generate::add_role_pairs(&mut random, more, &mut tables);
                let now = rows(&tables, &choices);
                let kept = before.iter().zip(&now).all(|(old, new)| old & !new == 0);
                assert!(kept, "a mark is gone in\n{}", tables);
                grown |= now != before;
                wide |= some_by_another_role(&tables, &now);
                before = now;
            }
            let mut again = tables.clone();
            let mut pairs: Vec<[u16; 2]> = tables.role_pairs().map(|(r, s)| [r, s]).collect();
            pairs.extend((0..8).map(|_| *random.pick(&pairs)).collect::<Vec<_>>());
            random.shuffle(&mut pairs);
            again.roles = pairs.concat();
            assert!(rows(&again, &choices) == before, "another order of\n{}", tables);
            tally.case();
            tally.note("more is below", grown);
            tally.note("some below some of another role", wide);
        }
    }
    let another = "some below some of another role";
    tally.finish(&[("more is below", 10..=90), (another, 10..=90)]);
}

/// The table's bytes, held against the reference.
fn rows(tables: &Tables, choices: &[u64]) -> Vec<u8> {
    let case = Case::new(tables.clone(), choices);
    assert_eq!(compare::table(&case).number, 0, "{}", case);
    let mut rows = vec![0; case.table_room];
    capi::subsumption_table(tables.lend(), choices, &mut rows);
    rows
}

fn some_by_another_role(tables: &Tables, rows: &[u8]) -> bool {
    let role = |id: usize| match tables.concept(id) {
        Concept::Existential(role, _) => Some(role),
        _ => None,
    };
    let count = tables.concept_count();
    let holds = |i: usize, j: usize| rows[i * ROW_BYTES + j / 8] >> (j % 8) & 1 == 1;
    let other = |i: usize, j: usize| match (role(i), role(j)) {
        (Some(one), Some(other)) => one != other && holds(i, j),
        _ => false,
    };
    (0..count).any(|i| (0..count).any(|j| other(i, j)))
}

/// Roles spread over circles of 32 pairs in all: every bit of the table is as without them.
#[test]
fn a_circle_is_one_role() {
    let seed = seed("roles, circles");
    let mut tally = Tally::new("roles, circles");
    for (size, share) in [(Size::Small, 8), (Size::Medium, 10), (Size::Large, 10)] {
        for k in 0..(cases(size) / share).max(1) {
            let mut random = Random::for_case(seed, k);
            let mut tables = generate::valid(&mut random, size);
            tables.roles.clear();
            // top for every blank, since with other roles the parts may be others
            for row in tables.concepts.chunks_exact_mut(3).filter(|row| row[0] == 4) {
                row.fill(0);
            }
            let before = Tables { variables: 0, ..tables };
            let spread = generate::spread_roles(&mut random, &before);
            // then there may be too many
            let skipped = reference::check(&spread).is_err();
            tally.case();
            tally.note("skipped", skipped);
            if skipped {
                continue;
            }
            let (mut one, mut two) = (vec![0; 192 * ROW_BYTES], vec![0; 192 * ROW_BYTES]);
            let answer = capi::subsumption_table(before.lend(), &[], &mut one);
            assert_eq!(answer, capi::subsumption_table(spread.lend(), &[], &mut two), "{}", spread);
            assert!(one == two, "{}", spread);
        }
    }
    tally.finish(&[("skipped", 0..=20)]);
}

/// The first solution written here by hand, from the library and from the reference.
fn expect_first(first: Option<&[u64]>, tables: &Tables) {
    let wanted = first.map(<[u64]>::to_vec).ok_or(NONE);
    let case = Case::new(tables.clone(), &[]);
    compare::find_expecting(&case, wanted.clone());
    assert_eq!(reference::find(tables, case.match_room), wanted, "for\n{}", tables);
}

/// The blank lies between two "some" entries, which wants the narrow role on the left.
#[test]
fn fillings_between_roles() {
    // 0 a name, 1 narrow, 2 wide, 3 the blank
    let rows = [[1, 5, 0], [2, 1, 0], [2, 2, 0], [4, 0, 0]];
    let ask = |left, right| Tables::new(&rows, &[], &[[left, 3], [3, right]], 1);
    // the parts are 0 and the right side
    expect_first(Some(&[2]), &ask(1, 2).with_roles(&[[1, 2]]));
    expect_first(None, &ask(1, 2));
    expect_first(None, &ask(2, 1).with_roles(&[[1, 2]]));
    expect_first(Some(&[2]), &ask(2, 1).with_roles(&[[1, 2], [2, 1]]));
    expect_first(Some(&[2]), &ask(1, 2).with_roles(&[[7, 2], [1, 7]]));
    expect_first(None, &ask(1, 2).with_roles(&[[7, 1], [2, 7]]));
    // the blank inside: 4 narrow over the blank, 5 wide over it
    let rows = [[1, 5, 0], [2, 1, 0], [2, 2, 0], [4, 0, 0], [2, 1, 3], [2, 2, 3]];
    let ask =
        |pairs: &[[u16; 2]], question| Tables::new(&rows, &[], &[question], 1).with_roles(pairs);
    expect_first(Some(&[1]), &ask(&[[1, 2]], [4, 2]));
    expect_first(None, &ask(&[[1, 2]], [5, 1]));
    expect_first(None, &ask(&[], [4, 2]));
    expect_first(Some(&[0]), &ask(&[[1, 2]], [1, 5]));
    expect_first(None, &ask(&[[1, 2]], [2, 4]));
    // both parts stand in an inclusion; the wide one has the higher position and is earlier
    let between = Tables::new(&rows, &[[1, 1], [2, 2]], &[[1, 3], [3, 2]], 1);
    expect_first(Some(&[4]), &between.clone().with_roles(&[[1, 2]]));
    expect_first(None, &between);
}

/// Problems that need a search, with pairs over their roles: any pairs, and circles, which leave
/// the answer as it was bit for bit.
#[test]
fn searches_with_role_pairs() {
    let seed = seed("roles, searches");
    let mut tally = Tally::new("roles, searches");
    let shapes = [planted::TINY[0], planted::TINY[1], planted::MEDIUM, planted::TOWERS[1]];
    for shape in shapes.into_iter().chain(planted::FULL) {
        for k in 0..(cases(Size::Large) / 15).max(1) {
            let mut random = Random::for_case(seed, k);
            let tables = planted::problem(&mut random, shape);
            let before = matching::first_solution(&tables);
            let spread = generate::spread_roles(&mut random, &tables);
            compare::find_expecting(&Case::new(spread, &[]), before.clone().ok_or(NONE));
            let mut more = tables;
            let count = random.between(2, MAX_ROLE_PAIRS);
            generate::add_role_pairs(&mut random, count, &mut more);
            let after = matching::first_solution(&more);
            compare::find_expecting(&Case::new(more, &[]), after.clone().ok_or(NONE));
            tally.case();
            tally.note("filled", before.is_some());
            tally.note("none", before.is_none());
            tally.note("another answer with pairs", after != before);
        }
    }
    tally.finish(&[("filled", 20..=80), ("none", 20..=80), ("another answer with pairs", 1..=90)]);
}

/// The same tables with one list of pairs, another, none, and the first again, with a refused call
/// in between: nothing of a call is left for the next.
#[test]
fn role_pairs_do_not_stick() {
    let seed = seed("roles, in a row");
    let mut moved = 0;
    for k in 0..cases(Size::Medium) / 4 {
        let mut random = Random::for_case(seed, k);
        let one = generate::valid(&mut random, Size::Small);
        let mut two = Tables { roles: Vec::new(), ..one.clone() };
        let none = two.clone();
        generate::add_role_pairs(&mut random, 4, &mut two);
        let refused = none.clone().with_roles(&[[100, 0]]);
        let choices = generate::assignment(&mut random, &one);
        for tables in [&one, &two, &refused, &none, &one] {
            compare::all(&Case::new(tables.clone(), &choices));
            compare::find(&Case::new(tables.clone(), &choices));
        }
        let members = |t: &Tables| Canonical::build(t, &atoms::chosen(t, &choices)).members;
        moved += usize::from(members(&one) != members(&two));
    }
    assert!(moved > 0, "no pairs changed anything");
}
