//! Several question tables in a row on one allowance of decisions: each by itself, with its share and
//! what the ones before it left over.

use super::{find_counted, refusals, Counted, Refusal};
use crate::settings::Settings;
use crate::tables::Tables;

const MOST_TABLES: usize = 8;
const MOST_SHARE: u32 = 1_000_000;

/// What each table is told, and what is left over at the end.
#[derive(Clone, Debug, PartialEq, Eq)]
pub struct Batch {
    pub answers: Vec<Counted>,
    pub left: u64,
}

/// Check 20.
fn fault(size: usize, lengths: &[u16], shares: &[u32]) -> Result<(), Refusal> {
    let sum: usize = lengths.iter().map(|&length| usize::from(length)).sum();
    let misshapen =
        lengths.len() > MOST_TABLES || shares.len() != lengths.len() || sum != size;
    refusals::refuse(20, misshapen.then_some(MOST_TABLES))?;
    refusals::refuse(20, shares.iter().position(|&share| share > MOST_SHARE))
}

/// The tables with the questions of each table of the batch in turn.
pub fn split(tables: &Tables, lengths: &[u16]) -> Vec<Tables> {
    let mut rest = &tables.questions[..];
    let mut all = Vec::new();
    for &length in lengths {
        let (questions, after) = rest.split_at(usize::from(length));
        all.push(Tables { questions: questions.to_vec(), ..tables.clone() });
        rest = after;
    }
    all
}

/// All atoms permitted, and 64 everywhere; nothing where the tables are refused anyway.
fn open(tables: &Tables) -> Settings {
    match refusals::of_tables(tables, None) {
        Ok(()) => Settings::open(tables),
        Err(_) => Settings::default(),
    }
}

/// How much of a buffer of that length table k has.
pub fn stretch(tables: &Tables, room: usize, k: usize) -> std::ops::Range<usize> {
    let width = usize::from(tables.variables);
    (k * width).min(room)..((k + 1) * width).min(room)
}

/// Operation: find the first assignment for each table of a batch.
pub fn find(
    tables: &Tables,
    lengths: &[u16],
    shares: &[u32],
    room: usize,
) -> Result<Batch, Refusal> {
    fault(tables.questions.len(), lengths, shares)?;
    let mut left = 0;
    let mut answers = Vec::new();
    for (k, table) in split(tables, lengths).iter().enumerate() {
        let amount = left + shares[k];
        let counted = find_counted(table, &open(table), amount, stretch(tables, room, k).len());
        left = amount - counted.count as u32;
        answers.push(counted);
    }
    Ok(Batch { answers, left: u64::from(left) })
}
