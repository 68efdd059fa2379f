//! A plain Rust implementation of the same operations, word-parallel and without heap: the
//! yardstick that the proved library is timed beside. It works on what it is lent and nothing
//! else, refusals included, so that both do the same work. Beside it, a measure of the stack that
//! the proved operations need.

pub mod checks;
pub mod columns;
pub mod countermodel;
pub mod functional_syntax;
pub mod incremental;
pub mod membership;
pub mod operations;
pub mod renumbering;
pub mod roles;
pub mod search;
pub mod stack;

use checks::{Input, Refusal, Stock};
use columns::Columns;
use hermitcasket_tests::tables::Tables;
use incremental::Rows;

const ROW_BYTES: usize = 24;

pub fn lend(tables: &Tables) -> Input<'_> {
    Input {
        concepts: &tables.concepts,
        inclusions: &tables.inclusions,
        questions: &tables.questions,
        roles: &tables.roles,
        variables: tables.variables,
    }
}

pub fn check(input: Input) -> Result<(), Refusal> {
    checks::accept(&input, None).map(|_| ())
}

/// How many atoms were written.
pub fn atoms(input: Input, out: &mut [u16]) -> Result<usize, Refusal> {
    let accepted = checks::accept(&input, None)?;
    if out.len() < 64 {
        return Err((8, 64));
    }
    let mut count = 0;
    columns::each(accepted.atoms, |id| {
        out[count] = id as u16;
        count += 1;
    });
    Ok(count)
}

/// How many pairs are below.
pub fn subsumption_table(input: Input, assignment: &[u64], out: &mut [u8]) -> Result<u64, Refusal> {
    let accepted = checks::accept(&input, None)?;
    checks::accept_assignment(&input, &accepted, assignment)?;
    let wanted = accepted.count * ROW_BYTES;
    if out.len() < wanted {
        return Err((8, wanted as u64));
    }
    let closed = Columns::close(&input, &accepted, assignment);
    closed.write_rows(&mut out[..wanted]);
    Ok(closed.marks())
}

pub fn subsumed(input: Input, assignment: &[u64], pair: (u16, u16)) -> Result<bool, Refusal> {
    let closed = close_for(input, assignment, pair)?;
    Ok(closed.holds(usize::from(pair.0), usize::from(pair.1)))
}

fn close_for(input: Input, assignment: &[u64], pair: (u16, u16)) -> Result<Columns, Refusal> {
    let accepted = checks::accept(&input, Some(pair))?;
    checks::accept_assignment(&input, &accepted, assignment)?;
    Ok(Columns::close(&input, &accepted, assignment))
}

/// How many rows of the interpretation where the pair fails were written.
pub fn show(
    input: Input,
    assignment: &[u64],
    pair: (u16, u16),
    out: &mut [u16],
) -> Result<u64, Refusal> {
    let closed = close_for(input, assignment, pair)?;
    countermodel::write(&input, &closed, pair, out)
}

/// Whether a concept has an element of the given interpretation as a member.
pub fn belongs(
    input: Input,
    assignment: &[u64],
    stock: Stock,
    asked: (u16, u16),
) -> Result<bool, Refusal> {
    let accepted = checks::accept(&input, None)?;
    checks::accept_assignment(&input, &accepted, assignment)?;
    checks::accept_stock(&accepted, stock, asked)?;
    Ok(membership::holds(&input, &accepted, assignment, stock, asked))
}

/// Closes a held table under the rules, with the assignment told as pairs.
pub fn update_table(input: Input, told: &[u16], table: &mut [u8]) -> Result<(), Refusal> {
    let accepted = checks::accept(&input, None)?;
    let chosen = checks::accept_told(&input, &accepted, told)?;
    let wanted = accepted.count * ROW_BYTES;
    if table.len() < wanted {
        return Err((8, wanted as u64));
    }
    Rows::close(&input, &accepted, &chosen, table).store(table);
    Ok(())
}

/// The concepts, inclusions and questions under new ids, each to its buffer.
pub fn renumber(input: Input, order: &[u16], out: [&mut [u16]; 3]) -> Result<(), Refusal> {
    let accepted = checks::accept(&input, None)?;
    renumbering::accept_list(order, accepted.count)?;
    renumbering::accept_rows(&input, order)?;
    for (buffer, table) in out.iter().zip([input.concepts, input.inclusions, input.questions]) {
        if buffer.len() < table.len() {
            return Err((8, table.len() as u64));
        }
    }
    let [concepts, inclusions, questions] = out;
    renumbering::write_rows(&input, order, concepts);
    renumbering::write_ids(order, input.inclusions, inclusions);
    renumbering::write_ids(order, input.questions, questions);
    Ok(())
}
