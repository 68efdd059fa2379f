//! hc_derive and hc_check_derivation: each rule, damaged lines, refusals, and a derivation for
//! every yes.

use hermitcasket_tests::capi::{self, Answer};
use hermitcasket_tests::compare;
use hermitcasket_tests::families::FAMILIES;
use hermitcasket_tests::faults::{base, every_set, faults_without_buffer, Fault, FAULTS};
use hermitcasket_tests::generate;
use hermitcasket_tests::limits::{line_room, ROW_BYTES};
use hermitcasket_tests::planted;
use hermitcasket_tests::random::{cases, full_run, seed, Random, Size};
use hermitcasket_tests::reference::derivation::{self, Line};
use hermitcasket_tests::reference::{self, atoms, matching, Refusal};
use hermitcasket_tests::tables::{Case, Tables};
use hermitcasket_tests::tally::Tally;

/// 0 and 1 one name, 2 another, 3 top, 4 "some" 0, 5 "some" 1 of the same role, 6 of another,
/// 7 "0 and 2", 8 variable 0, 9 variable 1, 10 "some" top, 11 "some" 0 of a role that 4's counts as.
/// Inclusions 0: 2 below 4; 1: 0 below 2. The atoms are 0, 2, 4; the choices {0, 2} and none.
fn rules_case(pair: (u16, u16), lines: &[Line]) -> Case {
    let rows = [
        [1, 5, 0],
        [1, 5, 0],
        [1, 6, 0],
        [0, 0, 0],
        [2, 1, 0],
        [2, 1, 1],
        [2, 2, 0],
        [3, 0, 2],
        [4, 0, 0],
        [4, 1, 0],
        [2, 1, 3],
        [2, 3, 0],
    ];
    let tables = Tables::new(&rows, &[[2, 4], [0, 2]], &[], 2);
    let tables = tables.with_roles(&[[7, 3], [1, 7]]);
    let mut case = Case::new(tables, &[3, 0]);
    case.pair = pair;
    case.lines = lines.concat();
    case
}

fn check(lines: &[Line]) -> Answer {
    let last = lines[lines.len() - 1];
    compare::check_derivation(&rules_case((last[1], last[2]), lines))
}

/// Right derivations, one or more for each rule; the last line is by the rule.
fn right() -> Vec<Vec<Line>> {
    vec![
        vec![[1, 3, 3, 0]],
        vec![[1, 8, 8, 0]],
        vec![[1, 0, 1, 0]],
        vec![[1, 1, 0, 0]],
        vec![[2, 6, 3, 0]],
        vec![[2, 3, 3, 0]],
        vec![[1, 0, 1, 0], [3, 7, 1, 0]],
        vec![[1, 2, 2, 0], [3, 7, 2, 1]],
        vec![[1, 0, 0, 0], [1, 2, 2, 0], [6, 0, 2, 1], [4, 0, 7, 0]],
        vec![[1, 0, 1, 0], [5, 4, 5, 0]],
        vec![[2, 1, 3, 0], [5, 5, 10, 0]],
        vec![[1, 0, 0, 0], [5, 4, 11, 0]],
        vec![[1, 1, 0, 0], [5, 5, 11, 0]],
        vec![[1, 2, 2, 0], [1, 0, 0, 0], [5, 4, 11, 0], [6, 2, 11, 0]],
        vec![[1, 2, 2, 0], [1, 4, 4, 0], [6, 2, 4, 0]],
        vec![[1, 0, 1, 0], [5, 4, 5, 0], [1, 2, 2, 0], [6, 2, 5, 0]],
        vec![[1, 0, 1, 0], [7, 8, 1, 0]],
        vec![[1, 2, 2, 0], [7, 8, 2, 2]],
        vec![[1, 0, 0, 0], [1, 2, 2, 0], [6, 0, 2, 1], [8, 0, 8, 0]],
        vec![[8, 6, 9, 0]],
        vec![[8, 8, 9, 0]],
    ]
}

#[test]
fn each_rule_is_accepted() {
    for lines in right() {
        assert_eq!(check(&lines), Answer::done(0), "{:?}", lines);
    }
}

/// Without any one of its premises the last line breaks its rule.
#[test]
fn each_premise_is_needed() {
    for lines in right() {
        for missing in 0..lines.len() - 1 {
            let mut fewer = lines.clone();
            fewer.remove(missing);
            let answer = check(&fewer);
            assert_eq!(answer.number, 12, "{:?} without {}", lines, missing);
            assert!(answer.place < fewer.len() as u64);
        }
    }
}

/// Lines of `rules_case` that break their rule whatever stands before them.
const BROKEN: &[Line] = &[
    [0, 0, 0, 0],
    [9, 0, 0, 0],
    [65535, 0, 0, 0],
    [257, 0, 0, 0],
    // 1: another name, a name and no name, "some" entries alike, an extra
    [1, 0, 2, 0],
    [1, 0, 3, 0],
    [1, 4, 5, 0],
    [1, 0, 0, 1],
    [1, 0, 1, 1],
    // 2: right not top, an extra, an empty choice is no top
    [2, 3, 0, 0],
    [2, 0, 3, 1],
    [2, 0, 9, 0],
    // 3: no "and", an extra past its two ids, the wrong id
    [3, 0, 0, 0],
    [3, 7, 0, 2],
    [3, 7, 0, 65535],
    [3, 8, 0, 0],
    // 4 and 5: no such entries, roles of which neither counts as the other, the wide one left, an
    // extra
    [4, 0, 0, 0],
    [4, 0, 7, 1],
    [5, 4, 6, 0],
    [5, 6, 11, 0],
    [5, 11, 6, 0],
    [5, 11, 4, 0],
    [5, 11, 5, 0],
    [5, 11, 10, 0],
    [5, 4, 11, 1],
    [5, 0, 4, 0],
    [5, 4, 3, 0],
    [5, 4, 5, 1],
    // 6: no such inclusion
    [6, 2, 4, 2],
    [6, 2, 4, 65535],
    [6, 4, 4, 0],
    // 7: no blank, no chosen part, a position, a part that is not below, another blank
    [7, 0, 0, 0],
    [7, 8, 2, 1],
    [7, 8, 4, 4],
    [7, 8, 6, 0],
    [7, 9, 0, 0],
    // 8: no blank, an extra, not below a chosen part
    [8, 0, 0, 0],
    [8, 6, 9, 1],
    [8, 2, 8, 0],
    [8, 0, 8, 1],
    // ids past the entries
    [1, 12, 12, 0],
    [2, 12, 3, 0],
    [8, 65535, 9, 0],
    [6, 0, 12, 0],
    [1, 256, 256, 0],
];

/// They are refused behind everything that is below, and alone.
#[test]
fn broken_lines() {
    let case = rules_case((0, 0), &[]);
    let chosen = atoms::chosen(&case.tables, &case.assignment);
    let all = derivation::closure(&case.tables, &chosen, &mut Random::new(1));
    for &line in BROKEN {
        let mut lines = all.clone();
        lines.push(line);
        let mut case = rules_case((0, 0), &lines);
        let wanted = Answer::refused(12, all.len() as u64);
        assert_eq!(compare::check_derivation(&case), wanted, "{:?}", line);
        case.lines = [line, line].concat();
        assert_eq!(compare::check_derivation(&case), Answer::refused(12, 0), "{:?}", line);
    }
}

/// Rule 7's extra is a chosen part, so a lowest twin: a copy of it is none, wherever it stands.
#[test]
fn a_copy_is_no_chosen_part() {
    // 0 to 2 one name, 3 to 5 "some" of each, 6 the variable; the copies 1 and 4 stand as atoms
    let rows = [[1, 5, 0], [1, 5, 0], [1, 5, 0], [2, 1, 0], [2, 1, 1], [2, 1, 2], [4, 0, 0]];
    let mut case = Case::new(Tables::new(&rows, &[[1, 4]], &[], 1), &[3]);
    for (from, to) in (0..3).flat_map(|from| (0..3).map(move |to| (from, to))) {
        let names = vec![[1, from, to, 0], [7, 6, to, from]];
        let somes = vec![[1, from, to, 0], [5, from + 3, to + 3, 0], [7, 6, to + 3, from + 3]];
        for lines in [names, somes] {
            let last = lines.len() - 1;
            case.pair = (6, lines[last][2]);
            case.lines = lines.concat();
            let refused = Answer::refused(12, last as u64);
            let wanted = if from == 0 { Answer::done(0) } else { refused };
            assert_eq!(compare::check_derivation(&case), wanted, "{:?}", lines);
            assert_eq!(compare::derive(&case).0.number, 0, "{:?}", case.pair);
        }
    }
}

/// No lines and ragged lists are place 0, even where a later line is broken too.
#[test]
fn no_lines_and_ragged_lists() {
    let whole = [[1, 0, 0, 0], [1, 2, 2, 0], [6, 0, 2, 1], [9, 9, 9, 9]];
    for len in 0..16 {
        let mut case = rules_case((0, 2), &whole);
        case.lines.truncate(len);
        let answer = compare::check_derivation(&case);
        let wanted = match len {
            12 => Answer::done(0),
            // the last line is the pair (0, 0), or (2, 2)
            4 => Answer::refused(12, 1),
            8 => Answer::refused(12, 2),
            _ => Answer::refused(12, 0),
        };
        assert_eq!(answer, wanted, "{} numbers", len);
    }
    let case = rules_case((0, 2), &whole);
    assert_eq!(compare::check_derivation(&case), Answer::refused(12, 3));
}

/// The asked pair last, at the count of lines; repeated and unneeded lines are accepted.
#[test]
fn the_last_line_and_repeated_lines() {
    let lines = vec![[1, 0, 0, 0], [1, 2, 2, 0], [6, 0, 2, 1]];
    for pair in [(0, 0), (2, 0), (2, 2), (0, 1), (1, 2)] {
        let answer = compare::check_derivation(&rules_case(pair, &lines));
        assert_eq!(answer, Answer::refused(12, 3), "{:?}", pair);
    }
    let twice = [lines.clone(), lines.clone()].concat();
    assert_eq!(check(&twice), Answer::done(0));
    let mut padded = lines.clone();
    padded.insert(0, [2, 6, 3, 0]);
    padded.insert(2, [1, 0, 0, 0]);
    assert_eq!(check(&padded), Answer::done(0));
    padded.push([2, 6, 3, 0]);
    let answer = compare::check_derivation(&rules_case((0, 2), &padded));
    assert_eq!(answer, Answer::refused(12, 6));
    // more lines than there are pairs
    let many = vec![[1, 0, 0, 0]; 200];
    assert_eq!(check(&many), Answer::done(0));
}

/// A premise on the same line or on a later one is none.
#[test]
fn premises_stand_on_earlier_lines() {
    assert_eq!(check(&[[6, 0, 2, 1]]), Answer::refused(12, 0));
    // 2 below 4 from itself, through inclusion 0 twice
    assert_eq!(check(&[[1, 2, 2, 0], [6, 2, 4, 0], [1, 4, 4, 0]]), Answer::refused(12, 1));
    assert_eq!(check(&[[3, 7, 1, 0], [1, 0, 1, 0], [3, 7, 1, 0]]), Answer::refused(12, 0));
    // (7, 7) through "and" on both sides, each line waiting for the other
    assert_eq!(check(&[[4, 7, 7, 0], [3, 7, 7, 0]]), Answer::refused(12, 0));
}

/// Orders, cuts and single numbers changed; the reference says where each list breaks.
fn damaged(lines: &[Line], random: &mut Random) -> Vec<Vec<u16>> {
    let whole = lines.concat();
    let mut lists = Vec::new();
    for k in 0..lines.len() {
        let mut swapped = lines.to_vec();
        swapped.swap(k, random.below(lines.len()));
        let mut removed = lines.to_vec();
        removed.remove(k);
        let mut repeated = lines.to_vec();
        repeated.insert(k, lines[random.below(lines.len())]);
        lists.extend([swapped.concat(), removed.concat(), repeated.concat()]);
    }
    let mut reversed = lines.to_vec();
    reversed.reverse();
    lists.push(reversed.concat());
    lists.push(whole[..random.below(whole.len())].to_vec());
    lists.push([&whole[..], &[0; 4][..random.between(1, 4)]].concat());
    lists
}

/// Every number of the list replaced by each of these.
fn with_one_number(lines: &[Line], values: &[u16]) -> Vec<Vec<u16>> {
    let whole = lines.concat();
    let mut lists = Vec::new();
    for at in 0..whole.len() {
        let near = [whole[at].wrapping_sub(1), whole[at].wrapping_add(1)];
        for &value in near.iter().chain(values) {
            let mut list = whole.clone();
            list[at] = value;
            lists.push(list);
        }
    }
    lists
}

#[test]
fn every_single_number_of_the_rules() {
    let mut values: Vec<u16> = (0..14).collect();
    values.extend([191, 192, 255, 256, 32768, 65535]);
    let (mut accepted, mut refused) = (0, 0);
    for lines in right() {
        let last = lines[lines.len() - 1];
        let mut case = rules_case((last[1], last[2]), &lines);
        for list in with_one_number(&lines, &values) {
            case.lines = list;
            match compare::check_derivation(&case).number {
                0 => accepted += 1,
                _ => refused += 1,
            }
        }
    }
    assert!(accepted > 0 && refused > accepted, "{} and {}", accepted, refused);
}

/// Right derivations of random tables, by the reference's writer, and the same damaged.
#[test]
fn random_derivations_agree() {
    let seed = seed("derivation, checker");
    let mut tally = Tally::new("derivation, checker");
    let mut lists_tally = Tally::new("derivation, checker, damaged lists");
    let mut places = std::collections::BTreeSet::new();
    for k in 0..cases(Size::Small) / 16 {
        let mut random = Random::for_case(seed, k);
        let tables = generate::valid(&mut random, Size::Small);
        let assignment = generate::assignment(&mut random, &tables);
        let mut case = Case::new(tables, &assignment);
        let chosen = atoms::chosen(&case.tables, &assignment);
        let closure = derivation::closure(&case.tables, &chosen, &mut random);
        tally.case();
        tally.note("skipped", closure.is_empty());
        if closure.is_empty() {
            // no concepts, so no pair
            continue;
        }
        let last = *random.pick(&closure);
        case.pair = (last[1], last[2]);
        let lines = derivation::cut_down(&case.tables, &chosen, &closure, derivation::pair(last));
        case.lines = lines.concat();
        assert_eq!(compare::check_derivation(&case), Answer::done(0), "{}", case);
        let mut lists = damaged(&lines, &mut random);
        let values = [random.below(9) as u16, random.below(15) as u16, 65535];
        lists.extend(with_one_number(&lines, &values));
        for list in lists {
            case.lines = list;
            let answer = compare::check_derivation(&case);
            lists_tally.case();
            lists_tally.note("accepted", answer.number == 0);
            lists_tally.note("refused", answer.number == 12);
            places.insert(answer.place);
        }
    }
    assert!(places.len() > 5 || !full_run(), "{:?}", places);
    tally.finish(&[("skipped", 0..=10)]);
    lists_tally.finish(&[("accepted", 5..=50), ("refused", 50..=95)]);
}

/// The rules give exactly the pairs of the relation: what the reference says of both is one.
#[test]
fn the_rules_give_the_relation() {
    let seed = seed("derivation, rules");
    for (size, share) in [(Size::Small, 8), (Size::Medium, 60)] {
        for k in 0..(cases(size) / share).max(1) {
            let mut random = Random::for_case(seed, k);
            let tables = generate::valid(&mut random, size);
            let assignment = generate::assignment(&mut random, &tables);
            let chosen = atoms::chosen(&tables, &assignment);
            let mut derived = vec![vec![false; tables.concept_count()]; tables.concept_count()];
            for line in derivation::closure(&tables, &chosen, &mut random) {
                let (left, right) = derivation::pair(line);
                assert!(!derived[left][right], "{} {} twice for\n{}", left, right, tables);
                derived[left][right] = true;
            }
            assert_eq!(derived, reference::relation(&tables, &assignment), "for\n{}", tables);
        }
    }
}

/// Every pair asked: yes gives lines that both checkers accept, no gives 11. How many of each.
fn derive_pairs(case: &mut Case, pairs: &[(u16, u16)]) -> (usize, usize) {
    let below = reference::relation(&case.tables, &case.assignment);
    let chosen = atoms::chosen(&case.tables, &case.assignment);
    let (mut yes, mut no) = (0, 0);
    for &pair in pairs {
        case.pair = pair;
        let holds = below[usize::from(pair.0)][usize::from(pair.1)];
        let expected = if holds { Ok(()) } else { Err(Refusal { number: 11, place: 0 }) };
        let (answer, written) = compare::derive_expecting(case, expected);
        let lines = derivation::split(&written);
        let needed = derivation::all_needed(&case.tables, &chosen, &lines);
        assert!(needed, "unneeded lines in {:?}, for\n{}", lines, case);
        yes += usize::from(answer.number == 0);
        no += usize::from(answer.number == 11);
    }
    (yes, no)
}

/// All pairs of small tables, some of medium ones, in buffers longer than wanted now and then.
#[test]
fn every_yes_gets_a_derivation() {
    let seed = seed("derivation, writer");
    let mut tally = Tally::new("derivation, writer");
    for (size, share, most) in [(Size::Small, 16, 196), (Size::Medium, 20, 40)] {
        for k in 0..(cases(size) / share).max(1) {
            let mut random = Random::for_case(seed, k);
            let tables = generate::valid(&mut random, size);
            let assignment = generate::assignment(&mut random, &tables);
            let mut case = Case::new(tables, &assignment);
            case.line_room += *random.pick(&[0, 0, 1, 3, 100]);
            let pairs = generate::pairs(&mut random, &case.tables, most);
            let (yes, no) = derive_pairs(&mut case, &pairs);
            tally.cases(pairs.len());
            tally.add("yes", yes);
            tally.add("no", no);
        }
    }
    tally.finish(&[("yes", 20..=80), ("no", 20..=80)]);
}

#[test]
fn at_192_entries() {
    let seed = seed("derivation, 192 entries");
    let mut yes = 0;
    for k in 0..(cases(Size::Large) / 30).max(1) {
        let mut random = Random::for_case(seed, k);
        let tables = generate::full(&mut random);
        let assignment = generate::assignment(&mut random, &tables);
        let mut case = Case::new(tables, &assignment);
        let pairs = generate::pairs(&mut random, &case.tables, 12);
        yes += derive_pairs(&mut case, &pairs).0;
    }
    for family in FAMILIES {
        let mut case = Case::new(family.tables(192), &[]);
        let mut pairs = generate::pairs(&mut Random::new(seed), &case.tables, 6);
        pairs.extend([(191, 191), (191, 0), (47, 0)]);
        yes += derive_pairs(&mut case, &pairs).0;
    }
    assert!(yes > 0);
}

/// Questions whose both sides are towers of existentials, over variables on one side: under the
/// first solution, or nothing chosen, and under any assignment. A question at depth 30 needs 30 lines.
#[test]
fn towers_over_variables() {
    let seed = seed("derivation, towers");
    let mut tally = Tally::new("derivation, towers");
    for shape in planted::TOWERS {
        for k in 0..(cases(Size::Large) / 60).max(1) {
            let mut random = Random::for_case(seed, k);
            let tables = planted::problem(&mut random, shape);
            let none = vec![0; usize::from(tables.variables)];
            let first = matching::first_solution(&tables).unwrap_or(none);
            let any = generate::assignment(&mut random, &tables);
            let asked: Vec<(u16, u16)> =
                tables.questions.chunks_exact(2).map(|pair| (pair[0], pair[1])).collect();
            for assignment in [first, any] {
                let mut case = Case::new(tables.clone(), &assignment);
                for &pair in &asked {
                    let (yes, _) = derive_pairs(&mut case, &[pair]);
                    tally.case();
                    tally.note("yes", yes == 1);
                    tally.note("no", yes == 0);
                    let long = yes == 1 && compare::derive(&case).0.value > shape.depth as u64;
                    tally.note("long", long);
                }
            }
        }
    }
    tally.finish(&[("yes", 20..=80), ("no", 20..=80), ("long", 20..=100)]);
}

/// The marks of the subsumption table, and the lines of the longest derivation of these pairs; no
/// derivation has more lines than marks.
fn marks_and_lines(tables: &Tables, assignment: &[u64], pairs: &[(u16, u16)]) -> (u64, u64) {
    let count = tables.concept_count();
    let mut rows = vec![0xff; count * ROW_BYTES];
    let table = capi::subsumption_table(tables.lend(), assignment, &mut rows);
    assert_eq!(table.number, 0, "for\n{}", tables);
    let mut out = vec![0; line_room(count)];
    let mut longest = 0;
    for &pair in pairs {
        let derived = capi::derive(tables.lend(), assignment, pair, &mut out);
        assert!([0, 11].contains(&derived.number), "{:?} for\n{}", derived, tables);
        let (lines, marks) = (derived.value, table.value);
        assert!(lines <= marks, "{} lines, {} marks, {:?} for\n{}", lines, marks, pair, tables);
        longest = longest.max(lines);
    }
    (table.value, longest)
}

#[test]
fn no_more_lines_than_marks() {
    let seed = seed("derivation, marks");
    let mut tally = Tally::new("derivation, marks");
    for (size, share, most) in
        [(Size::Small, 16, 196), (Size::Medium, 20, 40), (Size::Large, 30, 6)]
    {
        for k in 0..(cases(size) / share).max(1) {
            let mut random = Random::for_case(seed, k);
            let tables = generate::valid(&mut random, size);
            let assignment = generate::assignment(&mut random, &tables);
            let pairs = generate::pairs(&mut random, &tables, most);
            let (marks, longest) = marks_and_lines(&tables, &assignment, &pairs);
            tally.case();
            tally.note("some lines", longest > 0);
            tally.note("as many lines as marks", longest > 0 && longest == marks);
        }
    }
    for family in FAMILIES {
        let tables = family.tables(192);
        let pairs = generate::pairs(&mut Random::new(seed), &tables, 6);
        marks_and_lines(&tables, &[], &pairs);
    }
    tally.finish(&[("some lines", 50..=100)]);
}

/// The bound is reached: one entry alone; and an inclusion, which rests on both its ids.
#[test]
fn as_many_lines_as_marks() {
    let one = Tables::new(&[[1, 5, 0]], &[], &[], 0);
    assert_eq!(marks_and_lines(&one, &[], &[(0, 0)]), (1, 1));
    let two = Tables::new(&[[1, 5, 0], [1, 6, 0]], &[[0, 1]], &[], 0);
    assert_eq!(marks_and_lines(&two, &[], &[(0, 1)]), (3, 3));
}

/// 8 with its length, before 11; longer buffers keep their rest.
#[test]
fn short_buffers() {
    let rows = [[1, 5, 0], [1, 6, 0], [1, 5, 0]];
    let mut case = Case::new(Tables::new(&rows, &[], &[], 0), &[]);
    for (pair, lines) in [((0, 2), true), ((0, 1), false)] {
        case.pair = pair;
        for room in [0, 1, 4, 35] {
            case.line_room = room;
            assert_eq!(compare::derive(&case).0, Answer::refused(8, 36), "{} numbers", room);
        }
        for room in [36, 37, 40, 1000] {
            case.line_room = room;
            let answer = compare::derive(&case).0;
            let wanted = if lines { Answer::done(1) } else { Answer::refused(11, 0) };
            assert_eq!(answer, wanted, "{} numbers", room);
        }
    }
    let mut none = Case::new(Tables::default(), &[]);
    assert_eq!(compare::derive(&none).0, Answer::refused(4, 0));
    none.line_room = 9;
    assert_eq!(compare::derive(&none).0, Answer::refused(4, 0));
}

/// Every set of faults at once for the writer: 1 to 6, 16, 7, 9, 8, then 11.
#[test]
fn every_set_of_faults_for_the_writer() {
    for (mut case, chosen) in every_set(&FAULTS) {
        let wanted = match chosen.first() {
            None => Answer::done(1),
            Some(Fault::ShortBuffer) => {
                Answer::refused(8, line_room(case.tables.concept_count()) as u64)
            }
            Some(fault) => Answer::refused(fault.refusal().0, fault.refusal().1),
        };
        // the buffer is as long as the unharmed table wants; longer is harmless
        case.line_room = case.line_room.min(4 * 75 * 75);
        assert_eq!(compare::derive(&case).0, wanted, "{:?} in\n{}", chosen, case);
        // the same with a pair that is not below
        if case.pair == (0, 0) {
            case.pair = (0, 3);
            let none = chosen.is_empty();
            let wanted = if none { Answer::refused(11, 0) } else { wanted };
            assert_eq!(compare::derive(&case).0, wanted, "{:?} in\n{}", chosen, case);
        }
    }
}

/// Every set of faults at once for the checker: 1 to 6, 16, 7, 9, then 12.
#[test]
fn every_set_of_faults_for_the_checker() {
    for (mut case, chosen) in every_set(faults_without_buffer()) {
        for (lines, alone) in [
            (vec![], Answer::refused(12, 0)),
            (vec![1, 0, 0], Answer::refused(12, 0)),
            (vec![1, 0, 0, 0, 9, 0, 0, 0], Answer::refused(12, 1)),
            (vec![1, 3, 3, 0], Answer::refused(12, 1)),
            (vec![2, 0, 0, 0], Answer::done(0)),
        ] {
            case.lines = lines;
            let refused = |fault: &Fault| Answer::refused(fault.refusal().0, fault.refusal().1);
            let wanted = chosen.first().map_or(alone, refused);
            assert_eq!(compare::check_derivation(&case), wanted, "{:?} in\n{}", chosen, case);
        }
    }
}

/// Random cases, damaged or not, for both operations.
#[test]
fn random_cases_agree() {
    let seed = seed("derivation, refusals");
    let mut seen = [0; 17];
    for (size, share) in [(Size::Small, 2), (Size::Medium, 4), (Size::Large, 8)] {
        for k in 0..(cases(size) / share).max(1) {
            let mut random = Random::for_case(seed, k);
            let mut case = generate::case(&mut random, size);
            let wanted = line_room(case.tables.concept_count());
            case.line_room = wanted + random.below(3);
            if random.percent(20) {
                case.line_room = wanted.saturating_sub(1);
            }
            let (answer, written) = compare::derive(&case);
            seen[usize::from(answer.number)] += 1;
            case.lines = written;
            if random.percent(50) {
                case.lines.extend((0..random.below(9)).map(|_| random.below(5) as u16));
            }
            seen[usize::from(compare::check_derivation(&case).number)] += 1;
        }
    }
    let mut numbers = (0..13).filter(|&number| number != 10).chain([16]);
    let all_seen = numbers.all(|number| seen[number] > 0);
    assert!(all_seen || !full_run(), "answers 0 to 12 and 16: {:?}", seen);
}

/// A call leaves nothing behind: the same pair under two assignments and the first again.
#[test]
fn assignments_do_not_stick() {
    let mut case = base();
    let pair = (3, 2);
    for (choice, wanted) in [(1, 0), (4, 11), (3, 0), (1, 0)] {
        case.assignment = vec![choice, 0];
        case.pair = pair;
        assert_eq!(compare::derive(&case).0.number, wanted, "choice {}", choice);
    }
}
