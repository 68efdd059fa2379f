//! Every operation of the safe crate, with what it gives, and each refusal with its sentence.

use std::fmt::Debug;

use hermitcasket::{
    read_owl, Counted, Interpretation, Reason, Refusal, Result, Settings, SubsumptionTable, Tables,
};

/// 01's sample: 0 brioche, 1 butter, 2 filled with brioche, 3 pastry, 4 the variable, 5 butter and it.
const SAMPLE: Tables = Tables {
    concepts: &[1, 5, 0, 1, 7, 0, 2, 1, 0, 1, 9, 0, 4, 0, 0, 3, 1, 4],
    inclusions: &[2, 3],
    questions: &[5, 3, 2, 4],
    roles: &[],
    variables: 1,
};

/// Number, place and sentence of what was refused.
fn refused<T: Debug>(result: Result<T>) -> (u16, u64, String) {
    let refusal: Refusal = result.expect_err("a refusal");
    let said = refusal.to_string();
    let start = format!("refusal {}: ", refusal.number());
    (refusal.number(), refusal.place, said.strip_prefix(&start).expect("its number").to_string())
}

fn due(number: u16, place: u64, words: &str) -> (u16, u64, String) {
    (number, place, words.to_string())
}

#[test]
fn tables_are_checked() {
    assert_eq!(SAMPLE.check(), Ok(()));
    let many = vec![0; 3 * 193];
    let roles = vec![0; 2 * 33];
    let names: Vec<u16> = (0..65).flat_map(|name| [1, name, 0]).collect();
    let loops: Vec<u16> = (0..65).flat_map(|id| [id, id]).collect();
    let cases = [
        (Tables { concepts: &many, ..SAMPLE }, due(1, 0, "over 192 concepts, or one is cut short")),
        (Tables { inclusions: &[2], ..SAMPLE }, due(1, 1, "over 96 inclusions, or one is cut short")),
        (Tables { questions: &[5], ..SAMPLE }, due(1, 2, "over 32 questions, or one is cut short")),
        (Tables { variables: 9, ..SAMPLE }, due(1, 3, "over 8 variables")),
        (Tables { roles: &roles, ..SAMPLE }, due(1, 4, "over 32 role pairs, or one is cut short")),
        (
            Tables { concepts: &[1, 5, 0, 1, 1000, 0, 2, 1, 0, 1, 9, 0, 4, 0, 0, 3, 1, 4], ..SAMPLE },
            due(2, 1, "concept 1 is of no kind, a number of it is out of range, or one that is not used is not 0"),
        ),
        (
            Tables { concepts: &[2, 1, 0], ..SAMPLE },
            due(3, 0, "concept 0 has an inner id that is not smaller than its own"),
        ),
        (
            Tables { questions: &[5, 6], ..SAMPLE },
            due(4, 1, "pair 1 has an id that is no concept, inclusions and then questions counted through"),
        ),
        (Tables { inclusions: &[2, 4], ..SAMPLE }, due(5, 0, "inclusion 0 holds a variable")),
        (Tables { questions: &[5, 4], ..SAMPLE }, due(6, 0, "question 0 holds variables on both sides")),
        (
            Tables { concepts: &names, inclusions: &loops, questions: &[], ..SAMPLE },
            due(7, 64, "there are more than 64 atoms"),
        ),
        (Tables { roles: &[1, 2, 1, 100], ..SAMPLE }, due(16, 1, "role pair 1 has a role over 99")),
    ];
    for (tables, due) in cases {
        assert_eq!(refused(tables.check()), due);
        // the same of every operation, whatever else is lent to it
        let settings = Settings { permitted: vec![0], largest: vec![64] };
        let lone = Interpretation { size: 1, rows: vec![] };
        let mut held = SubsumptionTable::from_bytes(vec![0; 192 * 24]);
        assert_eq!(refused(tables.atoms()), due);
        assert_eq!(refused(tables.variables_in(0)), due);
        assert_eq!(refused(tables.subsumption_table(&[0])), due);
        assert_eq!(refused(tables.is_subsumed(&[0], 0, 0)), due);
        assert_eq!(refused(tables.find_assignment()), due);
        assert_eq!(refused(tables.find_within(&settings)), due);
        assert_eq!(refused(tables.find_counted(&settings, 9)), due);
        assert_eq!(refused(tables.unrestricted()), due);
        assert_eq!(refused(tables.chosen(&[0], 0)), due);
        assert_eq!(refused(tables.derivation(&[0], 0, 0)), due);
        assert_eq!(refused(tables.check_derivation(&[0], 0, 0, &[])), due);
        assert_eq!(refused(tables.countermodel(&[0], 0, 0)), due);
        assert_eq!(refused(tables.is_member(&[0], &lone, 0, 0)), due);
        assert_eq!(refused(tables.update_table(&[], &mut held)), due);
        assert_eq!(refused(tables.renumber(&[])), due);
        let lengths = [tables.questions.len() as u16];
        let batch = tables.find_batch(&lengths, &[5]).expect("a batch that is run");
        assert_eq!((refused(batch.answers[0].clone()), batch.left), (due.clone(), 5));
    }
}

#[test]
fn atoms_and_variables() {
    assert_eq!(SAMPLE.atoms(), Ok(vec![0, 2, 3]));
    assert_eq!((SAMPLE.variables_in(5), SAMPLE.variables_in(3)), (Ok(1), Ok(0)));
    assert_eq!(refused(SAMPLE.variables_in(6)), due(4, 0, "an asked id is no concept"));
}

#[test]
fn assignments_are_found() {
    assert_eq!(SAMPLE.find_assignment(), Ok(Some(vec![4])));
    let none = Tables { questions: &[5, 3, 0, 4], ..SAMPLE };
    assert_eq!(none.find_assignment(), Ok(None));
    assert_eq!(SAMPLE.chosen(&[4], 0), Ok(vec![3]));
    assert_eq!(SAMPLE.chosen(&[5], 0), Ok(vec![0, 3]));
    assert_eq!(refused(SAMPLE.chosen(&[4], 1)), due(2, 0, "the asked variable is none"));
    let numbers = "the assignment must have a number for each variable, 1 in all";
    assert_eq!(refused(SAMPLE.chosen(&[], 0)), due(9, 1, numbers));
    assert_eq!(
        refused(SAMPLE.chosen(&[8], 0)),
        due(9, 0, "variable 0 is assigned a bit past the atoms")
    );
}

#[test]
fn settings_are_heeded() {
    let all = SAMPLE.unrestricted().expect("accepted");
    assert_eq!(all, Settings { permitted: vec![7], largest: vec![64] });
    assert_eq!(SAMPLE.find_within(&all), Ok(Some(vec![4])));
    let barred = Settings { permitted: vec![3], ..all.clone() };
    assert_eq!(SAMPLE.find_within(&barred), Ok(Some(vec![2])));
    assert_eq!(SAMPLE.find_group(&barred, 1), Ok(Some(vec![2])));
    assert_eq!(refused(SAMPLE.find_group(&barred, 2)), due(4, 0, "the asked question is none"));
    let few = Settings { largest: vec![0], ..all.clone() };
    assert_eq!((SAMPLE.find_within(&few), SAMPLE.find_group(&few, 0)), (Ok(None), Ok(None)));
    let words = "variable 0 is permitted a bit past the atoms, or over 64 of them";
    let past = Settings { permitted: vec![8], ..all.clone() };
    assert_eq!(refused(SAMPLE.find_within(&past)), due(19, 0, words));
    let over = Settings { largest: vec![65], ..all.clone() };
    assert_eq!(refused(SAMPLE.find_counted(&over, 9)), due(19, 0, words));
    let short = Settings { largest: vec![], ..all };
    assert_eq!(
        refused(SAMPLE.find_group(&short, 0)),
        due(19, 1, "each list of settings must have a number for each variable, 1 in all")
    );
    // no atoms and all 64 of them
    let empty = Tables { variables: 2, ..Tables::default() };
    let nothing = Settings { permitted: vec![0, 0], largest: vec![64, 64] };
    assert_eq!(empty.unrestricted(), Ok(nothing));
    let names: Vec<u16> = (0..64).flat_map(|name| [1, name, 0]).collect();
    let loops: Vec<u16> = (0..64).flat_map(|id| [id, id]).collect();
    let full = Tables { concepts: &names, inclusions: &loops, variables: 1, ..Tables::default() };
    assert_eq!(full.unrestricted().map(|settings| settings.permitted), Ok(vec![u64::MAX]));
}

#[test]
fn decisions_are_counted() {
    let all = SAMPLE.unrestricted().expect("accepted");
    let found = Counted::Found { assignment: vec![4], count: 4 };
    assert_eq!(SAMPLE.find_counted(&all, 4), Ok(found.clone()));
    assert_eq!(SAMPLE.find_counted(&all, 3), Ok(Counted::Spent { allowance: 3 }));
    let few = Settings { largest: vec![0], ..all };
    assert_eq!(SAMPLE.find_counted(&few, 9), Ok(Counted::None { count: 3 }));
    // the second table is faulty, the third has 3 left over by the first
    let three = Tables { questions: &[5, 3, 2, 4, 5, 3, 4, 4, 5, 3, 2, 4], ..SAMPLE };
    let batch = three.find_batch(&[4, 4, 4], &[5, 1, 1]).expect("a batch that is run");
    assert_eq!(batch.answers[0], Ok(found));
    let words = "question 1 holds variables on both sides";
    assert_eq!(refused(batch.answers[1].clone()), due(6, 1, words));
    assert_eq!(batch.answers[2], Ok(Counted::Spent { allowance: 3 }));
    assert_eq!((batch.answers.len(), batch.left), (3, 0));
    let words = "over 8 tables, another number of shares, or lengths that do not add up";
    assert_eq!(refused(three.find_batch(&[4, 4], &[5, 1])), due(20, 8, words));
    assert_eq!(refused(three.find_batch(&[2; 9], &[5; 9])), due(20, 8, words));
    let words = "the share of table 1 is over 1000000";
    assert_eq!(refused(three.find_batch(&[4, 8], &[5, 1_000_001])), due(20, 1, words));
    let none = Tables { questions: &[], ..SAMPLE }.find_batch(&[], &[]).expect("no tables");
    assert_eq!((none.answers, none.left), (vec![], 0));
}

#[test]
fn subsumption_is_told() {
    let table = SAMPLE.subsumption_table(&[4]).expect("accepted");
    assert_eq!((table.marks(), table.bytes().len()), (13, 6 * 24));
    for (left, right) in (0..6).flat_map(|left| (0..6).map(move |right| (left, right))) {
        assert_eq!(SAMPLE.is_subsumed(&[4], left, right), Ok(table.is_subsumed(left, right)));
    }
    for far in [6, 191, 192, 200, u16::MAX] {
        assert!(!table.is_subsumed(0, far) && !table.is_subsumed(far, 0), "{}", far);
    }
    assert_eq!(refused(SAMPLE.is_subsumed(&[4], 6, 0)), due(4, 0, "an asked id is no concept"));
    assert_eq!(refused(SAMPLE.subsumption_table(&[])).0, 9);
}

#[test]
fn derivations_are_written_and_checked() {
    let lines = SAMPLE.derivation(&[4], 5, 3).expect("subsumed");
    assert_eq!(lines, [[1, 3, 3, 0], [7, 4, 3, 3], [3, 5, 3, 1]]);
    assert_eq!(SAMPLE.check_derivation(&[4], 5, 3, &lines), Ok(()));
    let words = "the pair is not subsumed, so there is no derivation of it";
    assert_eq!(refused(SAMPLE.derivation(&[4], 3, 5)), due(11, 0, words));
    let words = "the last line is another pair (lines: 3)";
    assert_eq!(refused(SAMPLE.check_derivation(&[4], 3, 5, &lines)), due(12, 3, words));
    let words = "line 0 does not follow by its rule";
    assert_eq!(refused(SAMPLE.check_derivation(&[4], 5, 3, &lines[1..])), due(12, 0, words));
    let words = "the derivation has no lines";
    assert_eq!(refused(SAMPLE.check_derivation(&[4], 5, 3, &[])), due(12, 0, words));
}

#[test]
fn interpretations_are_shown_and_looked_into() {
    let shown = SAMPLE.countermodel(&[4], 3, 2).expect("not subsumed");
    assert_eq!((shown.size, shown.rows.len()), (6, 8));
    assert_eq!(SAMPLE.is_member(&[4], &shown, 3, 3), Ok(true));
    assert_eq!(SAMPLE.is_member(&[4], &shown, 2, 3), Ok(false));
    let words = "the pair is subsumed, so there is no countermodel";
    assert_eq!(refused(SAMPLE.countermodel(&[4], 2, 3)), due(15, 0, words));
    let own = Interpretation { size: 1, rows: vec![[0, 0, 9, 0]] };
    assert_eq!(SAMPLE.is_member(&[4], &own, 3, 0), Ok(true));
    assert_eq!(refused(SAMPLE.is_member(&[4], &own, 3, 1)), due(4, 1, "the asked element is none"));
    assert_eq!(refused(SAMPLE.is_member(&[4], &own, 6, 0)), due(4, 0, "an asked id is no concept"));
    let words = "row 0 of the interpretation is of no kind, or has an element that is none";
    let odd = Interpretation { size: 1, rows: vec![[2, 0, 9, 0]] };
    assert_eq!(refused(SAMPLE.is_member(&[4], &odd, 3, 0)), due(2, 0, words));
    let words = "the interpretation has no elements or over 192, or a row is cut short";
    assert_eq!(refused(SAMPLE.is_member(&[4], &Interpretation::default(), 3, 0)), due(1, 0, words));
}

#[test]
fn held_tables_are_kept() {
    let more = Tables { inclusions: &[2, 3, 0, 3], ..SAMPLE };
    let before = SAMPLE.subsumption_table(&[4]).expect("accepted");
    let mut held = before.clone();
    let words = "told pair 1 has a variable or an atom that is none";
    assert_eq!(refused(more.update_table(&[[0, 3], [0, 5]], &mut held)), due(9, 1, words));
    assert_eq!(held, before);
    assert_eq!(more.update_table(&[[0, 3]], &mut held), Ok(()));
    assert!(held != before && Ok(held) == more.subsumption_table(&[4]));
    let mut short = SubsumptionTable::from_bytes(vec![0; 143]);
    let words = "the held table is too short: it must have 144 bytes";
    assert_eq!(refused(more.update_table(&[[0, 3]], &mut short)), due(8, 144, words));
}

#[test]
fn ids_are_renewed() {
    let moved = SAMPLE.renumber(&[1, 0, 2, 3, 4, 5]).expect("a list of all ids");
    assert_eq!(moved.concepts, [1, 7, 0, 1, 5, 0, 2, 1, 1, 1, 9, 0, 4, 0, 0, 3, 0, 4]);
    assert_eq!(moved.lend().find_assignment(), Ok(Some(vec![4])));
    let words = "number 1 of the list is no id, or stood before";
    assert_eq!(refused(SAMPLE.renumber(&[0, 0])), due(21, 1, words));
    assert_eq!(refused(SAMPLE.renumber(&[0, 1])), due(21, 2, "the list of new ids ends after 2"));
    let words = "concept 2 would have an inner id that is not smaller than its own";
    assert_eq!(refused(SAMPLE.renumber(&[2, 1, 0, 3, 4, 5])), due(22, 2, words));
}

#[test]
fn catalogues_are_read() {
    let read = read_owl(b"SubClassOf( :c5 :c9 )").expect("a catalogue");
    assert_eq!((&read.concepts[..], &read.inclusions[..]), (&[1, 5, 0, 1, 9, 0][..], &[0, 1][..]));
    assert_eq!(read.lend().check(), Ok(()));
    let words = "what starts at byte 11 is none of the syntax there";
    assert_eq!(refused(read_owl(b"SubClassOf :c5")), due(17, 11, words));
    let words = "the text ends at byte 10, too early";
    assert_eq!(refused(read_owl(b"SubClassOf")), due(17, 10, words));
    assert_eq!(refused(read_owl(&[b' '; 8193])), due(17, 8192, "the text is over 8192 bytes long"));
    let deep = format!("SubClassOf({}", "ObjectSomeValuesFrom(:r1 ".repeat(33));
    let words = "the class at byte 811 begins over 32 deep";
    assert_eq!(refused(read_owl(deep.as_bytes())), due(18, 811, words));
    let wide = format!("SubClassOf(:c1 ObjectIntersectionOf({}", ":c1 ".repeat(193));
    let words = "the catalogue has over 192 concepts";
    assert_eq!(refused(read_owl(wide.as_bytes())), due(1, 0, words));
}

#[test]
fn each_number_has_its_reason() {
    for (reason, number) in Reason::ALL.into_iter().zip(1..) {
        assert_eq!(reason.number(), number);
    }
    assert_eq!((Reason::AllowanceSpent.number(), Reason::ForwardInOrder.number()), (14, 22));
    let refusal = SAMPLE.variables_in(6).expect_err("a refusal");
    assert_eq!(format!("{:?}", refusal), "refusal 4: an asked id is no concept");
}
