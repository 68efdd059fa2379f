//! The card of examples/sample.txt: an assignment and what it chooses, why a yes holds, and an interpretation
//! where a no fails. examples/card.c is the same in C, and prints the same lines.
//!
//!     (cd crates/capi && rt lib)
//!     cargo run -p hermitcasket --example card

use hermitcasket::{Refusal, Tables};

/// 0 brioche, 1 butter, 2 filled with brioche, 3 pastry, 4 the blank, 5 butter and the blank.
const SAMPLE: Tables = Tables {
    concepts: &[1, 5, 0, 1, 7, 0, 2, 1, 0, 1, 9, 0, 4, 0, 0, 3, 1, 4],
    inclusions: &[2, 3],
    questions: &[5, 3, 2, 4],
    roles: &[],
    variables: 1,
};

/// The lines that are printed.
pub fn told() -> Result<Vec<String>, Refusal> {
    let assignment = match SAMPLE.find_assignment()? {
        Some(assignment) => assignment,
        None => return Ok(vec!["nothing fills the card".to_string()]),
    };
    let chosen = SAMPLE.chosen(&assignment, 0)?;
    let chosen: String = chosen.iter().map(|id| format!(" {}", id)).collect();
    let mut lines = vec![format!("blank 0:{}", chosen)];
    for [rule, left, right, extra] in SAMPLE.derivation(&assignment, 5, 3)? {
        lines.push(format!("rule {}: {} is below {} ({})", rule, left, right, extra));
    }
    for row in SAMPLE.countermodel(&assignment, 3, 2)?.rows {
        lines.push(match row {
            [0, element, name, _] => format!("thing {} is {}", element, name),
            [_, element, role, other] => {
                format!("thing {} is linked by {} to thing {}", element, role, other)
            }
        });
    }
    Ok(lines)
}

#[allow(dead_code)] // the tests ask for the lines alone
fn main() -> Result<(), Refusal> {
    told()?.iter().for_each(|line| println!("{}", line));
    Ok(())
}
