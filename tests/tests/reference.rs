//! The reference itself, held against 01's definition of "below" on tiny tables, and against 02's
//! of twins, of roles above roles, of a shown interpretation, of a held table that is closed, of new
//! ids and of catalogues in OWL functional syntax.

use std::collections::BTreeSet;

use hermitcasket_tests::families::FAMILIES;
use hermitcasket_tests::generate;
use hermitcasket_tests::hard::{self, Hard};
use hermitcasket_tests::layout::Relation;
use hermitcasket_tests::limits::{MAX_ATOMS, MAX_CONCEPTS, MAX_ROLE, MAX_ROLE_PAIRS};
use hermitcasket_tests::orders;
use hermitcasket_tests::owl::{self, Axiom, Class};
use hermitcasket_tests::random::{cases, seed, Random, Size};
use hermitcasket_tests::reference::atoms::{self, chosen, Twins};
use hermitcasket_tests::reference::model::{self, Canonical};
use hermitcasket_tests::reference::{self, countermodel, derivation, incremental, matching, roles};
use hermitcasket_tests::reference::{renumbering, Refusal};
use hermitcasket_tests::semantics::{
    all_interpretations, counterexample, member, obeys, random_model, Interpretation,
};
use hermitcasket_tests::shift::held_marks;
use hermitcasket_tests::tables::{Concept, Stock, Tables};
use hermitcasket_tests::tally::Tally;

/// The canonical interpretation obeys inclusions and role pairs, and its element i, a member of i, refutes
/// every "no" of row i: membership is asked again of the plain definition.
#[test]
fn canonical_model_refutes_every_no() {
    let seed = seed("reference, canonical model");
    let (mut yes, mut no, mut widened) = (0, 0, 0);
    for k in 0..cases(Size::Small) / 4 {
        let mut random = Random::for_case(seed, k);
        let tables = generate::valid(&mut random, Size::Small);
        let ids = chosen(&tables, &generate::assignment(&mut random, &tables));
        let canonical = Canonical::build(&tables, &ids);
        let model = &canonical.interpretation;
        assert!(obeys(model, &tables), "case {}: {}", k, tables);
        for i in 0..tables.concept_count() {
            assert!(member(model, &tables, &ids, i, i), "case {}: {}", k, tables);
            for j in 0..tables.concept_count() {
                let holds = canonical.members[i][j];
                assert_eq!(member(model, &tables, &ids, i, j), holds, "{} {} {}", i, j, tables);
                yes += usize::from(holds);
                no += usize::from(!holds);
                widened += usize::from(holds && other_roles(&tables, i, j));
            }
        }
    }
    let all_seen = yes > 0 && no > 0 && widened > 0;
    assert!(all_seen, "{} yes, {} no, {} with other roles", yes, no, widened);
}

/// Both are "some", of roles that differ.
fn other_roles(tables: &Tables, i: usize, j: usize) -> bool {
    match (tables.concept(i), tables.concept(j)) {
        (Concept::Existential(one, _), Concept::Existential(other, _)) => one != other,
        _ => false,
    }
}

/// The interpretation that is shown is a canonical one too: it obeys both tables, and its element i is
/// a member of j exactly when i is subsumed by j. It is what its rows say.
#[test]
fn the_shown_interpretation_is_canonical() {
    let seed = seed("reference, shown");
    let (mut no, mut larger) = (0, 0);
    for k in 0..cases(Size::Small) / 4 {
        let mut random = Random::for_case(seed, k);
        let tables = generate::valid(&mut random, Size::Small);
        let ids = chosen(&tables, &generate::assignment(&mut random, &tables));
        let canonical = Canonical::build(&tables, &ids);
        let shown = countermodel::shown(&tables, &canonical.members);
        assert!(obeys(&shown, &tables), "case {}: {}", k, tables);
        for (i, row) in canonical.members.iter().enumerate() {
            for (j, &holds) in row.iter().enumerate() {
                assert_eq!(member(&shown, &tables, &ids, i, j), holds, "{} {} {}", i, j, tables);
                no += usize::from(!holds);
            }
        }
        let rows = countermodel::rows(&shown);
        let stock = Stock { size: tables.concept_count() as u16, rows };
        assert_eq!(countermodel::read(&stock), shown, "case {}: {}", k, tables);
        larger += usize::from(shown != canonical.interpretation);
    }
    assert!(no > 0 && larger > 0, "{} no, {} with more than was repaired", no, larger);
}

/// Membership found once, and what is obeyed by it, against 01's words on random interpretations.
#[test]
fn membership_is_as_defined() {
    let seed = seed("reference, membership");
    let (mut yes, mut no, mut obeyed, mut broken) = (0, 0, 0, 0);
    for k in 0..cases(Size::Small) / 8 {
        let mut random = Random::for_case(seed, k);
        let tables = generate::valid(&mut random, Size::Small);
        let ids = chosen(&tables, &generate::assignment(&mut random, &tables));
        let stock = generate::stock(&mut random, &tables, Size::Small);
        let size = usize::from(stock.size);
        let said = if random.percent(50) {
            countermodel::read(&stock)
        } else {
            random_model(&tables, size, &mut random)
        };
        let members = model::membership(&said, &tables, &ids);
        assert_eq!(members.len(), size, "{}", tables);
        for (x, row) in members.iter().enumerate() {
            assert_eq!(row.len(), tables.concept_count(), "{}", tables);
            for (j, &holds) in row.iter().enumerate() {
                assert_eq!(member(&said, &tables, &ids, x, j), holds, "{} {} {}", x, j, tables);
                yes += usize::from(holds);
                no += usize::from(!holds);
            }
        }
        let obeys = obeys(&said, &tables);
        assert_eq!(model::obeys(&said, &tables), obeys, "{:?} of\n{}", said, tables);
        obeyed += usize::from(obeys);
        broken += usize::from(!obeys);
    }
    let all_seen = yes > 0 && no > 0 && obeyed > 0 && broken > 0;
    assert!(all_seen, "{} yes, {} no, {} obeyed, {} broken", yes, no, obeyed, broken);
}

/// Pair after pair is marked where a line for it has its premises marked, until nothing is new.
fn swept(tables: &Tables, ids: &[Vec<usize>], held: &Relation) -> Relation {
    let mut marked = held.clone();
    loop {
        let before = marked.clone();
        for (left, right) in (0..held.len()).flat_map(|i| (0..held.len()).map(move |j| (i, j))) {
            let follows = derivation::line_for(tables, ids, &marked, (left, right)).is_some();
            marked[left][right] |= follows;
        }
        if marked == before {
            return marked;
        }
    }
}

fn transitive(marks: &Relation) -> bool {
    let ids = || 0..marks.len();
    let through = |i: usize, j: usize| ids().all(|k| !marks[i][j] || !marks[j][k] || marks[i][k]);
    ids().all(|i| ids().all(|j| through(i, j)))
}

/// A held table closed from premises to lines, against sweeps from lines to premises; and where
/// nothing is held, against the canonical interpretation.
#[test]
fn held_marks_are_closed_as_the_rules_say() {
    let seed = seed("reference, held marks");
    let mut tally = Tally::new("reference, held marks");
    for k in 0..cases(Size::Small) / 8 {
        let mut random = Random::for_case(seed, k);
        let tables = generate::valid(&mut random, Size::Small);
        let ids = chosen(&tables, &generate::assignment(&mut random, &tables));
        let held = held_marks(&mut random, &tables, &ids);
        let closed = incremental::closure(&tables, &ids, &held);
        assert_eq!(closed, swept(&tables, &ids, &held), "{:?} of\n{}", held, tables);
        let nothing = vec![vec![false; held.len()]; held.len()];
        let fresh = Canonical::build(&tables, &ids).members;
        assert_eq!(incremental::closure(&tables, &ids, &nothing), fresh, "{}", tables);
        tally.case();
        tally.note("marks added", closed != held);
        tally.note("other than afresh", closed != fresh);
        tally.note("not transitive", !transitive(&closed));
    }
    tally.finish(&[
        ("marks added", 30..=95),
        ("other than afresh", 10..=80),
        ("not transitive", 5..=60),
    ]);
}

/// No random interpretation that obeys inclusions and role pairs refutes a "yes".
#[test]
fn random_models_refute_no_yes() {
    let seed = seed("reference, random models");
    let mut refuted = 0;
    for k in 0..cases(Size::Small) / 8 {
        let mut random = Random::for_case(seed, k);
        let tables = generate::valid(&mut random, Size::Small);
        let ids = chosen(&tables, &generate::assignment(&mut random, &tables));
        let members = Canonical::build(&tables, &ids).members;
        for size in 1..5 {
            let model = random_model(&tables, size, &mut random);
            refuted += refuted_pairs(&model, &tables, &ids, &members);
        }
    }
    assert!(refuted > 0, "the random models refute nothing at all");
}

/// The same over every interpretation of one and two elements with two names and one role.
#[test]
fn all_tiny_models_refute_no_yes() {
    let seed = seed("reference, tiny models");
    let mut refuted = 0;
    let mut tally = Tally::new("reference, tiny models");
    for k in 0..cases(Size::Small) / 12 {
        let mut random = Random::for_case(seed, k);
        let tables = few_symbols(&mut random, 2, 1);
        let ids = chosen(&tables, &generate::assignment(&mut random, &tables));
        let members = Canonical::build(&tables, &ids).members;
        for size in 1..3 {
            for model in all_interpretations(size, vec![0, 1], vec![0]) {
                let obeys = obeys(&model, &tables);
                if obeys {
                    refuted += refuted_pairs(&model, &tables, &ids, &members);
                }
                tally.case();
                // an interpretation that breaks an inclusion says nothing
                tally.note("skipped", !obeys);
            }
        }
    }
    assert!(refuted > 0, "the tiny models refute nothing at all");
    tally.finish(&[("skipped", 0..=40)]);
}

/// The same with one name and three roles, and up to three pairs among these.
#[test]
fn all_tiny_models_of_roles_refute_no_yes() {
    let seed = seed("reference, tiny models of roles");
    let mut refuted = 0;
    let mut tally = Tally::new("reference, tiny models of roles");
    for k in 0..cases(Size::Small) / 240 {
        let mut random = Random::for_case(seed, k);
        let mut tables = few_symbols(&mut random, 1, 3);
        tables.roles.clear();
        let count = random.between(1, 3);
        generate::add_role_pairs(&mut random, count, &mut tables);
        tables.roles.iter_mut().for_each(|role| *role %= 3);
        let ids = chosen(&tables, &generate::assignment(&mut random, &tables));
        let members = Canonical::build(&tables, &ids).members;
        for size in 1..3 {
            for model in all_interpretations(size, vec![0], vec![0, 1, 2]) {
                let obeys = obeys(&model, &tables);
                if obeys {
                    refuted += refuted_pairs(&model, &tables, &ids, &members);
                }
                tally.case();
                tally.note("obeys", obeys);
            }
        }
    }
    assert!(refuted > 0, "the tiny models refute nothing at all");
    tally.finish(&[("obeys", 5..=90)]);
}

/// How many pairs the model refutes; none of them may be a "yes".
fn refuted_pairs(
    model: &Interpretation,
    tables: &Tables,
    ids: &[Vec<usize>],
    members: &[Vec<bool>],
) -> usize {
    assert!(obeys(model, tables), "not a model of {}", tables);
    let mut refuted = 0;
    for (i, row) in members.iter().enumerate() {
        for (j, &holds) in row.iter().enumerate() {
            if let Some(x) = counterexample(model, tables, ids, i, j) {
                assert!(
                    !holds,
                    "element {} of {:?} refutes {} below {}, chosen {:?}, {}",
                    x, model, i, j, ids, tables
                );
                refuted += 1;
            }
        }
    }
    refuted
}

/// A small table with the names and roles folded into so many.
fn few_symbols(random: &mut Random, names: u16, roles: u16) -> Tables {
    let mut tables = generate::valid(random, Size::Small);
    for id in 0..tables.concept_count() {
        match tables.concept(id) {
            Concept::Name(name) => tables.concepts[3 * id + 1] = name % names,
            Concept::Existential(role, _) => tables.concepts[3 * id + 1] = role % roles,
            _ => {}
        }
    }
    tables.roles.iter_mut().for_each(|role| *role %= roles);
    tables
}

/// The search along the pairs, against the least relation that is reflexive and transitive and holds
/// the pairs: roles in between are allowed one by one.
#[test]
fn wider_is_the_least_such_relation() {
    let seed = seed("reference, wider");
    let mut tally = Tally::new("reference, wider");
    for k in 0..cases(Size::Small) / 60 {
        let mut random = Random::for_case(seed, k);
        let rows: Vec<[u16; 3]> = (0..8).map(|k| [2, 13 * k, 0]).collect();
        let mut tables = Tables::new(&rows, &[], &[], 0);
        let count = random.between(1, MAX_ROLE_PAIRS);
        generate::add_role_pairs(&mut random, count, &mut tables);
        let all = usize::from(MAX_ROLE) + 1;
        let mut reached = vec![vec![false; all]; all];
        (0..all).for_each(|role| reached[role][role] = true);
        for (narrow, wide) in tables.role_pairs() {
            reached[usize::from(narrow)][usize::from(wide)] = true;
        }
        for between in 0..all {
            let onward = reached[between].clone();
            for row in reached.iter_mut().filter(|row| row[between]) {
                row.iter_mut().zip(&onward).for_each(|(known, &more)| *known |= more);
            }
        }
        let bits = roles::wider_bits(&tables);
        let mut through_others = false;
        for narrow in 0..=MAX_ROLE {
            for wide in 0..=MAX_ROLE {
                let wanted = reached[usize::from(narrow)][usize::from(wide)];
                let counts = roles::counts_as(&tables, narrow, wide);
                assert_eq!(counts, wanted, "{} as {} in\n{}", narrow, wide, tables);
                assert_eq!(bits[usize::from(narrow)] >> wide & 1 == 1, wanted);
                let told = tables.role_pairs().any(|pair| pair == (narrow, wide));
                through_others |= wanted && narrow != wide && !told;
            }
        }
        // past the table a role counts as itself only
        assert!(roles::wider(&tables, 100).into_iter().eq([100]), "{}", tables);
        tally.case();
        tally.note("through other roles", through_others);
    }
    tally.finish(&[("through other roles", 30..=95)]);
}

/// Roles spread over circles of 32 pairs: the relation is as it was, and so is the first solution
/// where no ids were twins.
#[test]
fn circles_of_roles_change_no_answer() {
    let seed = seed("reference, circles");
    let mut tally = Tally::new("reference, circles");
    for (size, share) in [(Size::Small, 8), (Size::Medium, 20), (Size::Large, 20)] {
        for k in 0..(cases(size) / share).max(1) {
            let mut random = Random::for_case(seed, k);
            let mut tables = generate::valid(&mut random, size);
            tables.roles.clear();
            let spread = generate::spread_roles(&mut random, &tables);
            assert_eq!(spread.role_pairs().count(), MAX_ROLE_PAIRS, "{}", spread);
            let ids = chosen(&tables, &generate::assignment(&mut random, &tables));
            let before = Canonical::build(&tables, &ids).members;
            assert_eq!(Canonical::build(&spread, &ids).members, before, "{}", spread);
            let one_list = atoms::list_with_copies(&tables) == atoms::list(&tables);
            tally.case();
            tally.note("the same parts", one_list);
            tally.note("other roles", spread.concepts != tables.concepts);
            if one_list {
                assert_eq!(atoms::list(&spread), atoms::list(&tables), "{}", spread);
                let first = matching::first_solution(&tables);
                assert_eq!(matching::first_solution(&spread), first, "{}", spread);
            }
        }
    }
    tally.finish(&[("the same parts", 20..=90), ("other roles", 40..=100)]);
}

/// The concept written out in full: two are built alike exactly when they read the same. Its
/// length doubles with each "and", so this is for tiny tables only.
fn written_out(tables: &Tables, id: usize) -> String {
    match tables.concept(id) {
        Concept::Top => "top".to_string(),
        Concept::Name(name) => format!("n{}", name),
        Concept::Existential(role, inner) => format!("r{}({})", role, written_out(tables, inner)),
        Concept::Conjunction(first, second) => {
            format!("({} and {})", written_out(tables, first), written_out(tables, second))
        }
        Concept::Variable(variable) => format!("v{}", variable),
    }
}

/// Whether the id stands in the other, at any depth.
fn stands_in(tables: &Tables, id: usize, other: usize) -> bool {
    let inside = match tables.concept(other) {
        Concept::Existential(_, inner) => stands_in(tables, id, inner),
        Concept::Conjunction(first, second) => {
            stands_in(tables, id, first) || stands_in(tables, id, second)
        }
        _ => false,
    };
    id == other || inside
}

/// Both lists of atoms by their definitions, each id asked alone.
#[test]
fn both_lists_of_atoms_by_their_definitions() {
    let seed = seed("reference, twins");
    let mut tally = Tally::new("reference, twins");
    for k in 0..cases(Size::Small) / 4 {
        let mut random = Random::for_case(seed, k);
        let mut tables = generate::valid(&mut random, Size::Small);
        if random.percent(60) {
            let most = random.between(1, 12);
            generate::paste_copies(&mut random, &mut tables, most);
        }
        let count = tables.concept_count();
        let texts: Vec<String> = (0..count).map(|id| written_out(&tables, id)).collect();
        let ground = |id: &usize| !texts[*id].contains('v');
        let mut sides: Vec<usize> = tables.inclusion_pairs().iter().map(|pair| pair.0).collect();
        sides.extend(tables.inclusion_pairs().iter().map(|pair| pair.1));
        sides.extend(tables.question_pairs().iter().map(|pair| pair.1).filter(ground));
        let stands = |&id: &usize| {
            matches!(tables.row(id)[0], 1 | 2)
                && sides.iter().any(|&side| stands_in(&tables, id, side))
        };
        let with_copies: Vec<usize> = (0..count).filter(stands).collect();
        assert_eq!(atoms::list_with_copies(&tables), with_copies, "{}", tables);
        let mut twins = Twins::new(&tables);
        let mut wanted = BTreeSet::new();
        for id in 0..count {
            let lowest = texts.iter().position(|text| *text == texts[id]).expect("itself");
            assert_eq!(twins.lowest(id), lowest, "{} of {}", id, tables);
            for other in 0..count {
                assert_eq!(twins.alike(id, other), texts[id] == texts[other], "{}", tables);
            }
            if with_copies.contains(&id) {
                wanted.insert(lowest);
            }
        }
        let wanted: Vec<usize> = wanted.into_iter().collect();
        assert_eq!(atoms::list(&tables), wanted, "{}", tables);
        tally.case();
        tally.note("one list", wanted == with_copies);
        tally.note("fewer", wanted.len() < with_copies.len());
        let stands_nowhere = |id: &usize| !with_copies.contains(id);
        tally.note("a lowest twin stands elsewhere", wanted.iter().any(stands_nowhere));
    }
    tally.finish(&[
        ("one list", 20..=80),
        ("fewer", 15..=80),
        ("a lowest twin stands elsewhere", 10..=80),
    ]);
}

/// Under new ids each concept is written out as before, and each pair is of the same concepts. A
/// list of all ids is accepted exactly when inner ids stay smaller.
#[test]
fn new_ids_keep_the_concepts() {
    let seed = seed("reference, new ids");
    let mut tally = Tally::new("reference, new ids");
    for k in 0..cases(Size::Small) / 4 {
        let mut random = Random::for_case(seed, k);
        let tables = generate::valid(&mut random, Size::Small);
        let count = tables.concept_count();
        let mut order = orders::rising(&mut random, &tables);
        if random.percent(30) {
            random.shuffle(&mut order);
        }
        let mut sorted = order.clone();
        sorted.sort_unstable();
        assert_eq!(sorted, orders::identity(count), "{:?}", order);
        assert_eq!(renumbering::list_fault(&order, count), None, "{:?}", order);
        let answer = reference::renumber(&tables, &order, tables.lengths());
        let rising = orders::is_rising(&tables, &order);
        assert_eq!(answer.is_ok(), rising, "{:?} of {}", order, tables);
        tally.case();
        tally.note("smaller", rising);
        tally.note("not smaller", !rising);
        match answer {
            Err(Refusal { number, .. }) => assert_eq!(number, 22, "{:?} of {}", order, tables),
            Ok(after) => {
                let new = |id: usize| usize::from(order[id]);
                for id in 0..count {
                    assert_eq!(written_out(&after, new(id)), written_out(&tables, id));
                }
                let moved = |pairs: Vec<(usize, usize)>| -> Vec<(usize, usize)> {
                    pairs.into_iter().map(|(left, right)| (new(left), new(right))).collect()
                };
                assert_eq!(after.inclusion_pairs(), moved(tables.inclusion_pairs()));
                assert_eq!(after.question_pairs(), moved(tables.question_pairs()));
                assert_eq!(reference::check(&after), Ok(()), "{:?} of {}", order, tables);
            }
        }
    }
    tally.finish(&[("smaller", 50..=95), ("not smaller", 5..=40)]);
}

/// A catalogue is read back as the axioms that were written, whatever spaces stand between them, and
/// its concepts are theirs.
#[test]
fn catalogues_are_read_as_written() {
    fn meant(class: &Class) -> String {
        match class {
            Class::Thing => "top".to_string(),
            Class::Name(name) => format!("n{}", name),
            Class::Some(role, inner) => format!("r{}({})", role, meant(inner)),
            Class::All(members) => {
                let pair = |left: String, right: String| format!("({} and {})", left, right);
                members.iter().map(meant).reduce(pair).expect("members")
            }
        }
    }
    let seed = seed("reference, catalogues");
    for size in [Size::Small, Size::Medium, Size::Large] {
        for k in 0..(cases(size) / 8).max(1) {
            let mut random = Random::for_case(seed, k);
            let axioms = owl::catalogue(&mut random, size);
            let text = owl::spaced(&mut random, &owl::tokens(&axioms));
            assert_eq!(reference::owl::read(&text), Ok(axioms.clone()));
            let tables = reference::owl::tables(&axioms);
            assert_eq!(tables.concept_count(), owl::concepts(&axioms));
            let sides = |axiom: &Axiom| (meant(&axiom.left), meant(&axiom.right));
            let read = |(l, r): (usize, usize)| (written_out(&tables, l), written_out(&tables, r));
            let read: Vec<(String, String)> =
                tables.inclusion_pairs().into_iter().map(read).collect();
            assert_eq!(read, axioms.iter().map(sides).collect::<Vec<_>>());
        }
    }
}

/// Towers of 95 "and" over one name and its copy: 2^95 names each, one step for each pair.
#[test]
fn twins_of_tall_towers() {
    for (name, alike) in [(5, true), (6, false)] {
        let mut rows = vec![[1, 5, 0], [1, name, 0]];
        rows.extend((0..95).flat_map(|k| [[3, 2 * k, 2 * k], [3, 2 * k + 1, 2 * k + 1]]));
        let tables = Tables::new(&rows, &[], &[], 0);
        assert_eq!(tables.concept_count(), MAX_CONCEPTS);
        assert_eq!(Twins::new(&tables).alike(190, 191), alike);
        assert_eq!(Twins::new(&tables).lowest(191), if alike { 190 } else { 191 });
    }
}

/// Copies pasted in leave the atoms and the first solution. Over the list with copies the
/// reference finds something exactly when it does over the atoms, by both of its ways.
#[test]
fn a_solution_over_either_list() {
    let seed = seed("reference, both lists");
    let mut tally = Tally::new("reference, both lists");
    for k in 0..cases(Size::Small) / 12 {
        let mut random = Random::for_case(seed, k);
        let tables = generate::valid(&mut random, Size::Small);
        let mut pasted = tables.clone();
        let most = random.between(1, 8);
        generate::paste_copies(&mut random, &mut pasted, most);
        assert_eq!(reference::check(&pasted), Ok(()), "{}", pasted);
        assert_eq!(atoms::list(&pasted), atoms::list(&tables), "{}", pasted);
        let first = matching::first_solution(&pasted);
        assert_eq!(first, matching::first_solution(&tables), "{}", pasted);
        let with_copies = atoms::list_with_copies(&pasted);
        let over_copies = matching::first_solution_over(&pasted, &with_copies);
        assert_eq!(over_copies.is_some(), first.is_some(), "{}", pasted);
        let few = usize::from(pasted.variables) * with_copies.len() <= 10;
        if few {
            let tried = matching::brute_force_over(&pasted, &with_copies);
            assert_eq!(tried, over_copies, "{}", pasted);
        }
        tally.case();
        tally.note("filled", first.is_some());
        tally.note("none", first.is_none());
        tally.note("every choice tried", few);
        tally.note("fewer atoms", with_copies.len() > atoms::list(&pasted).len());
    }
    tally.finish(&[
        ("filled", 20..=80),
        ("none", 20..=80),
        ("every choice tried", 20..=90),
        ("fewer atoms", 20..=90),
    ]);
}

/// The problems that are built have no twins among their atoms, so as many as are meant.
#[test]
fn built_problems_have_no_copies() {
    let one_list = |problem: &Hard| {
        let list = atoms::list(&problem.tables);
        assert_eq!(list, atoms::list_with_copies(&problem.tables), "{}", problem.label);
    };
    for k in [1, 8, 60] {
        hard::with_harmless(k).iter().for_each(one_list);
    }
    for seed in 1..4 {
        hard::puzzles(seed).iter().for_each(one_list);
        hard::large_random_puzzles(seed).iter().for_each(one_list);
        for problem in hard::at_the_limits(seed) {
            one_list(&problem);
            assert_eq!(atoms::list(&problem.tables).len(), MAX_ATOMS, "{}", problem.label);
        }
    }
    hard::spread_over_roles(1).iter().for_each(one_list);
    hard::large_fixed_puzzles().iter().for_each(one_list);
    one_list(&hard::hardest_pigeons());
    // the families are random in part: fewer atoms, and no more than a third of the concepts
    for family in FAMILIES {
        for n in [24, 48, 96, 192] {
            assert!(atoms::list(&family.tables(n)).len() <= n / 3, "{:?} {}", family, n);
        }
    }
}
