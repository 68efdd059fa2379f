//! Matching as an answer-set program, grounded by gringo and solved by clasp. A choice says which
//! parts each blank takes; `below` follows from it by rules; each question is a constraint. The
//! solver looks for any filling, not for the first.

use std::fmt::Write;
use std::fs;
use std::process::Command;

use hermitcasket_tests::konclude::is_installed;
use hermitcasket_tests::reference::atoms;
use hermitcasket_tests::settings::Settings;
use hermitcasket_tests::tables::{Concept, Tables};

use super::{best, run, Scratch, Timed, LIMIT};

/// Any parts for each blank.
const ANY: &str = "{ take(V,P) } :- variable(V), part(P).\n";

/// Permitted parts, and no more than a largest count.
const WITHIN: &str = "\
#defined permitted/2.
{ take(V,P) : permitted(V,P) } N :- largest(V,N).
";

/// `below` is for entries without blanks, so gringo finds it; `over` goes up from an entry with
/// blanks on a question's left, and `under` says what is below one on a question's right. Both
/// only for the entries that a question leads to.
const RULES: &str = "\
pattern(I) :- blank(I,V).
pattern(I) :- some(I,R,A), pattern(A).
pattern(I) :- and(I,A,B), pattern(A).
pattern(I) :- and(I,A,B), pattern(B).
ground(I) :- entry(I), not pattern(I).

#defined wider/2.
counts(R,R) :- some(I,R,A).
counts(R,S) :- counts(R,T), wider(T,S).

below(X,X) :- ground(X).
below(X,I) :- ground(X), top(I).
below(X,J) :- below(X,I), name(I,N), name(J,N).
below(X,A) :- below(X,I), and(I,A,B).
below(X,B) :- below(X,I), and(I,A,B).
below(X,I) :- below(X,A), below(X,B), and(I,A,B).
below(X,J) :- below(X,I), some(I,R,A), below(A,B), counts(R,S), some(J,S,B).
below(X,R) :- below(X,L), included(L,R).

left(I) :- question(I,R), pattern(I).
left(A) :- left(I), some(I,R,A).
left(A) :- left(I), and(I,A,B).
left(B) :- left(I), and(I,A,B).
over(I,Y) :- left(I), below(I,Y).
over(I,T) :- left(I), top(T).
over(I,P) :- left(I), blank(I,V), take(V,P).
over(I,Y) :- left(I), and(I,A,B), over(A,Y).
over(I,Y) :- left(I), and(I,A,B), over(B,Y).
over(I,J) :- left(I), some(I,R,A), over(A,B), counts(R,S), some(J,S,B), ground(J).
over(I,Y) :- over(I,Z), below(Z,Y), pattern(I).
over(I,J) :- over(I,A), over(I,B), and(J,A,B), ground(J).
over(I,R) :- over(I,L), included(L,R).

right(L,R) :- question(L,R), pattern(R).
right(X,A) :- right(X,I), and(I,A,B).
right(X,B) :- right(X,I), and(I,A,B).
right(B,A) :- right(X,I), some(I,S,A), below(X,J), counts(R,S), some(J,R,B).
under(X,I) :- right(X,I), below(X,I).
under(X,I) :- right(X,I), blank(I,V), not take(V,P) : part(P), not below(X,P).
under(X,I) :- right(X,I), and(I,A,B), under(X,A), under(X,B).
under(X,I) :- right(X,I), some(I,S,A), below(X,J), counts(R,S), some(J,R,B), under(B,A).

:- question(L,R), ground(L), ground(R), not below(L,R).
:- question(L,R), pattern(L), not over(L,R).
:- question(L,R), pattern(R), not under(L,R).
#show take/2.
";

pub fn installed() -> bool {
    is_installed("gringo") && is_installed("clasp")
}

/// Whether there is a filling.
pub fn solve(tables: &Tables, scratch: &Scratch) -> Timed<bool> {
    run_both(facts(tables) + ANY + RULES, scratch)
}

/// Whether there is one within the settings.
pub fn solve_within(tables: &Tables, settings: &Settings, scratch: &Scratch) -> Timed<bool> {
    run_both(facts(tables) + &limits(tables, settings) + WITHIN + RULES, scratch)
}

fn run_both(text: String, scratch: &Scratch) -> Timed<bool> {
    let program = scratch.file("card.lp");
    let (ground, answer) = (scratch.file("ground.aspif"), scratch.file("clasp.log"));
    fs::write(&program, text).expect("a file for gringo");
    best(|| {
        let first = run(Command::new("gringo").arg(&program), &ground, LIMIT)?;
        let rest = LIMIT.saturating_sub(first);
        let second = run(Command::new("clasp").arg(&ground), &answer, rest)?;
        let said = fs::read_to_string(&answer).expect("clasp's answer");
        Some((is_filled(&said), first + second))
    })
}

fn is_filled(said: &str) -> bool {
    let word = |wanted: &str| said.lines().any(|line| line == wanted);
    assert!(word("SATISFIABLE") != word("UNSATISFIABLE"), "clasp said\n{}", said);
    word("SATISFIABLE")
}

fn facts(tables: &Tables) -> String {
    let mut text = String::new();
    for id in 0..tables.concept_count() {
        let _ = match tables.concept(id) {
            Concept::Top => writeln!(text, "top({}).", id),
            Concept::Name(name) => writeln!(text, "name({},{}).", id, name),
            Concept::Existential(role, inner) => writeln!(text, "some({},{},{}).", id, role, inner),
            Concept::Conjunction(a, b) => writeln!(text, "and({},{},{}).", id, a, b),
            Concept::Variable(variable) => writeln!(text, "blank({},{}).", id, variable),
        };
    }
    for (left, right) in tables.inclusion_pairs() {
        let _ = writeln!(text, "included({},{}).", left, right);
    }
    for (left, right) in tables.question_pairs() {
        let _ = writeln!(text, "question({},{}).", left, right);
    }
    for (narrow, wide) in tables.role_pairs() {
        let _ = writeln!(text, "wider({},{}).", narrow, wide);
    }
    for part in atoms::list(tables) {
        let _ = writeln!(text, "part({}).", part);
    }
    let _ = writeln!(text, "variable(0..{}).", i32::from(tables.variables) - 1);
    let _ = writeln!(text, "entry(0..{}).", tables.concept_count() as i32 - 1);
    text
}

/// What each blank may take.
fn limits(tables: &Tables, settings: &Settings) -> String {
    let mut text = String::new();
    for (variable, parts) in atoms::chosen(tables, &settings.permitted).iter().enumerate() {
        for part in parts {
            let _ = writeln!(text, "permitted({},{}).", variable, part);
        }
        let _ = writeln!(text, "largest({},{}).", variable, settings.largest[variable]);
    }
    text
}
