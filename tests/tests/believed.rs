//! specs/ shows what must be believed: at its top exactly the definitions that public contracts and the scope's sentences reach.

use std::collections::BTreeSet;

use hermitcasket_tests::believed::{clauses, said, Definitions, Name};

fn list(names: &BTreeSet<&Name>) -> String {
    let rows = names.iter().map(|name| format!("  {} {}.{}", name.of, name.module, name.name));
    rows.collect::<Vec<String>>().join("\n")
}

#[test]
fn what_is_reached_stands_at_the_top() {
    let reached = Definitions::of_all_crates().reached();
    assert!(reached.len() > 100, "{} definitions are reached: the reader of sources is broken", reached.len());
    let hidden: BTreeSet<&Name> = reached.iter().filter(|name| name.is_private()).collect();
    assert!(hidden.is_empty(), "public contracts reach these of Inner:\n{}", list(&hidden));
}

#[test]
fn what_is_not_reached_stands_in_the_private_module() {
    let definitions = Definitions::of_all_crates();
    let reached = definitions.reached();
    let all = definitions.all();
    let open: BTreeSet<&Name> = all.difference(&reached).filter(|name| !name.is_private()).collect();
    assert!(open.is_empty(), "no public contract reaches these at the top of specs/:\n{}", list(&open));
}

/// README.md has the table, which `--nocapture` prints.
#[test]
fn the_readme_says_how_much_there_is_to_believe() {
    let rows = Definitions::of_all_crates().table();
    let rows: String =
        rows.iter().map(|(what, lines)| format!("| {} | {} |\n", what, lines)).collect();
    let table = format!("\n| what you have to believe | lines |\n|---|---|\n{}\n", rows);
    println!("{}", table);
    let is_there = include_str!("../../README.md").contains(&table);
    assert!(is_there, "README.md has another table than\n{}", table);
}

/// Each of the first five is part of the next, and everything of all.
#[test]
fn who_wants_more_has_more_to_believe() {
    let lines: Vec<usize> =
        Definitions::of_all_crates().table().iter().map(|(_, lines)| *lines).collect();
    assert_eq!(lines.len(), 7);
    assert!(lines[..5].windows(2).all(|two| two[0] < two[1]), "{:?}", lines);
    assert!(lines[4] + lines[5] <= lines[6] && lines[5] > 0, "{:?}", lines);
}

const KINDS: &str = "\
-- Kinds.
use Prim.Native.Nat.{ℕ}

pub data Kind : Type 0 where
  -- two of them
  one two : Kind
  deriving Discrete as kind-discrete

module _ (k : Kind) where
  -- It does not cite what stands beside it, here only: beside.
  unfoldable pub inside : ℕ → ℕ

  inside n = n

  abbrev pub beside : Kind
  beside = k

module _ (n : ℕ) where
  abbrev pub counted : ℕ
  counted = n
abbrev pub plain : ℕ
plain = 0
";

const USES: &str = "\
use Rattle.std.specs.Prelude.{ℕ, ◌≡◌}
use Rattle.x.specs.Kinds.{two, inside as within, beside, counted}
use Rattle.x.specs.Kinds.{plain}
use Rattle.x.specs.declared.kinds.Code.{Code}

pub record Is (n : ℕ) : Type 0 where
  pub kind : two ≡ beside two
  pub code : Code

-- plain
abbrev pub Was : ℕ → Type 0
Was n =
    within two n ≡ n × Is n
";

/// Each definition that the names lead to counts once, and so does the line of a section.
#[test]
fn lines_are_counted_along_the_names() {
    let mut definitions = Definitions::default();
    definitions.add("x", "Kinds", KINDS);
    definitions.add("y", "Uses", USES);
    let lines = |names: &[(&str, &str, &str)]| {
        let name = |(of, module, name): &(&str, &str, &str)| Name {
            of: of.to_string(),
            module: module.to_string(),
            name: name.to_string(),
        };
        definitions.lines(&definitions.reached_from(names.iter().map(name)))
    };
    assert_eq!(lines(&[]), 0);
    assert_eq!(lines(&[("x", "Kinds", "plain")]), 2);
    assert_eq!(lines(&[("x", "Kinds", "Kind")]), 3);
    assert_eq!(lines(&[("x", "Kinds", "one"), ("x", "Kinds", "kind-discrete")]), 3);
    assert_eq!(lines(&[("x", "Kinds", "counted")]), 3);
    assert_eq!(lines(&[("x", "Kinds", "inside")]), 3 + 3);
    assert_eq!(lines(&[("x", "Kinds", "inside"), ("x", "Kinds", "beside")]), 3 + 5);
    assert_eq!(lines(&[("y", "Uses", "Is")]), 3 + 3 + 3);
    assert_eq!(lines(&[("y", "Uses", "Was"), ("x", "Kinds", "plain")]), 3 + 3 + 3 + 5 + 2);
}

/// A clause runs to the bracket that closes it, whatever its lines begin with; what stands in a body is none.
#[test]
fn clauses_are_read_to_their_end() {
    let code = "pub fn plain(\n    a: u8,\n)\n    requires { Is a }\n    ensures kept { Is (record { a = a })\n        × (Was result)\n        \
                (λ b. Is b) }\n    ensures other {\n        Was result }\n{\n    ensures { Not }\n}\n\npub extern \"C\" fn other()\n    ensures {\n        \
                Was }\n{\n}\n";
    let found = clauses(code);
    let due = [
        ("other", "ensures { Was }\n"),
        (
            "plain",
            "requires { Is a }\nensures kept { Is (record { a = a }) × (Was result) (λ b. Is b) }\nensures other { Was result }\n",
        ),
    ];
    let found: Vec<(&str, &str)> = found.iter().map(|(of, text)| (&**of, &**text)).collect();
    assert_eq!(found, due);
    // the name of a clause is no part of what it says
    assert_eq!(said("ensures kept { Is a }"), "{ Is a }");
}
