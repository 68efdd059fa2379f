//! Each operation called on one case and held against the reference: the answer, every lent
//! buffer, and the guards around them. A difference stops the test and prints the case.

use std::ops::RangeInclusive;

use crate::capi::{self, Answer, Cards, Catalogue};
use crate::lend::{Lent, LentInputs, Noise};
use crate::limits::ROW_BYTES;
use crate::random::{cases, full_run, seed, Random, Size};
use crate::reference::batches::{self, Batch};
use crate::reference::{self, atoms::chosen as chosen_ids, derivation, Counted, Refusal};
use crate::tables::{Case, TablesRef};
use crate::tally::Tally;

/// Noise for the buffers, the same for the same case.
fn noise(case: &Case) -> Random {
    let rooms = (case.atom_room as u64) << 32 ^ case.table_room as u64;
    Random::new(rooms ^ 0x5eed)
}

pub fn check(case: &Case) -> Answer {
    let inputs = LentInputs::new(&case.tables, &case.assignment, &mut noise(case));
    let answer = capi::check(inputs.tables());
    let expected = reference::check(&case.tables);
    judge(case, "hc_check", answer, expected.map(|()| 0), &inputs);
    answer
}

pub fn atoms(case: &Case) -> Answer {
    let mut random = noise(case);
    let inputs = LentInputs::new(&case.tables, &case.assignment, &mut random);
    let mut out: Lent<u16> = Lent::noise(case.atom_room, &mut random);
    let answer = capi::atoms(inputs.tables(), out.slice_mut());
    let expected = reference::atoms(&case.tables, case.atom_room);
    let written = expected.clone().unwrap_or_default();
    let count = expected.map(|list| list.len() as u64);
    judge(case, "hc_atoms", answer, count, &inputs);
    judge_output(case, "hc_atoms", &out, &written);
    answer
}

/// The set of blanks of one id.
pub fn blanks(case: &Case, id: u16) -> Answer {
    let inputs = LentInputs::new(&case.tables, &case.assignment, &mut noise(case));
    let answer = capi::blanks(inputs.tables(), id);
    let expected = reference::blanks(&case.tables, id);
    judge(case, "hc_blanks", answer, expected.map(u64::from), &inputs);
    answer
}

pub fn table(case: &Case) -> Answer {
    let mut random = noise(case);
    let inputs = LentInputs::new(&case.tables, &case.assignment, &mut random);
    let mut out: Lent<u8> = Lent::noise(case.table_room, &mut random);
    let answer = capi::subsumption_table(inputs.tables(), inputs.assignment(), out.slice_mut());
    let expected = reference::subsumption_table(&case.tables, &case.assignment, case.table_room);
    let written = expected.clone().unwrap_or_default().rows;
    let name = "hc_subsumption_table";
    judge(case, name, answer, expected.map(|table| table.marks), &inputs);
    judge_rows(case, name, out.slice(), &written);
    judge_output(case, name, &out, &written);
    answer
}

pub fn decide(case: &Case) -> Answer {
    let inputs = LentInputs::new(&case.tables, &case.assignment, &mut noise(case));
    let answer = capi::subsumed(inputs.tables(), inputs.assignment(), case.pair);
    let expected = reference::subsumed(&case.tables, &case.assignment, case.pair);
    let value = expected.map(u64::from);
    judge(case, "hc_subsumed", answer, value, &inputs);
    answer
}

/// The matcher, against the reference's search.
pub fn find(case: &Case) -> Answer {
    find_expecting(case, reference::find(&case.tables, case.match_room))
}

/// The matcher, against an answer known otherwise.
pub fn find_expecting(case: &Case, expected: Result<Vec<u64>, Refusal>) -> Answer {
    let mut random = noise(case);
    let inputs = LentInputs::new(&case.tables, &case.assignment, &mut random);
    let mut out: Lent<u64> = Lent::noise(case.match_room, &mut random);
    let answer = capi::find(inputs.tables(), out.slice_mut());
    let written = expected.clone().unwrap_or_default();
    judge(case, "hc_match", answer, expected.map(|_| 0), &inputs);
    let now = &out.slice()[..written.len()];
    assert!(now == written, "hc_match wrote {:?}, not {:?}, for\n{}", now, written, case);
    judge_output(case, "hc_match", &out, &written);
    answer
}

/// The matcher within the case's settings, against the reference's search.
pub fn find_within(case: &Case) -> Answer {
    let expected = reference::find_within(&case.tables, &case.settings, case.match_room);
    find_within_expecting(case, expected)
}

/// The same where the answer is known otherwise.
pub fn find_within_expecting(case: &Case, expected: Result<Vec<u64>, Refusal>) -> Answer {
    found_expecting(case, "hc_match_within", capi::find_within, expected)
}

/// A finder within the case's settings that gives no value.
fn found_expecting(
    case: &Case,
    name: &str,
    find: impl Fn(TablesRef, &[u64], &[u16], &mut [u64]) -> Answer,
    expected: Result<Vec<u64>, Refusal>,
) -> Answer {
    let mut random = noise(case);
    let inputs = LentInputs::new(&case.tables, &case.assignment, &mut random);
    let permitted: Lent<u64> = Lent::holding(&case.settings.permitted, &mut random);
    let largest: Lent<u16> = Lent::holding(&case.settings.largest, &mut random);
    let mut out: Lent<u64> = Lent::noise(case.match_room, &mut random);
    let tables = inputs.tables();
    let answer = find(tables, permitted.slice(), largest.slice(), out.slice_mut());
    let written = expected.clone().unwrap_or_default();
    judge(case, name, answer, expected.map(|_| 0), &inputs);
    judge_output(case, name, &permitted, &[]);
    judge_output(case, name, &largest, &[]);
    let now = &out.slice()[..written.len()];
    assert!(now == written, "{} wrote {:?}, not {:?}, for\n{}", name, now, written, case);
    judge_output(case, name, &out, &written);
    answer
}

/// The same of the group of the case's question, against the reference's search.
pub fn find_group(case: &Case) -> Answer {
    let Case { tables, settings, question, match_room, .. } = case;
    find_group_expecting(case, reference::find_group(tables, settings, *question, *match_room))
}

/// The same where the answer is known otherwise.
pub fn find_group_expecting(case: &Case, expected: Result<Vec<u64>, Refusal>) -> Answer {
    let name = "hc_match_group";
    let find = |tables: TablesRef, permitted: &[u64], largest: &[u16], out: &mut [u64]| {
        capi::find_group(tables, permitted, largest, case.question, out)
    };
    found_expecting(case, name, find, expected)
}

/// The same on the case's allowance, against the walk of the reference.
pub fn find_counted(case: &Case) -> Answer {
    let Case { tables, settings, allowance, match_room, .. } = case;
    find_counted_expecting(case, reference::find_counted(tables, settings, *allowance, *match_room))
}

/// The same where the answer and the count are known otherwise.
pub fn find_counted_expecting(case: &Case, expected: Counted) -> Answer {
    let name = "hc_match_counted";
    let mut random = noise(case);
    let inputs = LentInputs::new(&case.tables, &case.assignment, &mut random);
    let permitted: Lent<u64> = Lent::holding(&case.settings.permitted, &mut random);
    let largest: Lent<u16> = Lent::holding(&case.settings.largest, &mut random);
    let mut out: Lent<u64> = Lent::noise(case.match_room, &mut random);
    let answer = capi::find_counted(
        inputs.tables(),
        permitted.slice(),
        largest.slice(),
        case.allowance,
        out.slice_mut(),
    );
    let Counted { answer: found, count } = expected;
    let wanted = match &found {
        Ok(_) => Answer::done(count),
        Err(refusal) => Answer { value: count, ..Answer::refused(refusal.number, refusal.place) },
    };
    judge_answer(case, name, answer, wanted, &inputs);
    judge_output(case, name, &permitted, &[]);
    judge_output(case, name, &largest, &[]);
    let written = found.unwrap_or_default();
    let now = &out.slice()[..written.len()];
    assert!(now == written, "{} wrote {:?}, not {:?}, for\n{}", name, now, written, case);
    judge_output(case, name, &out, &written);
    answer
}

/// The tables of the case's batch in turn, against the reference.
pub fn find_batch(case: &Case) -> Cards {
    let Case { tables, lengths, shares, match_room, .. } = case;
    find_batch_expecting(case, batches::find(tables, lengths, shares, *match_room))
}

/// The same where the answers are known otherwise.
pub fn find_batch_expecting(case: &Case, expected: Result<Batch, Refusal>) -> Cards {
    let name = "hc_match_cards";
    let mut random = noise(case);
    let inputs = LentInputs::new(&case.tables, &case.assignment, &mut random);
    let lengths: Lent<u16> = Lent::holding(&case.lengths, &mut random);
    let shares: Lent<u32> = Lent::holding(&case.shares, &mut random);
    let mut out: Lent<u64> = Lent::noise(case.match_room, &mut random);
    let mut wanted = out.slice().to_vec();
    let cards =
        capi::find_batch(inputs.tables(), lengths.slice(), shares.slice(), out.slice_mut());
    let due = match expected {
        Err(refusal) => Cards::refused(refusal.number, refusal.place),
        Ok(batch) => {
            let mut due = Cards { left: batch.left, ..Cards::default() };
            for (k, Counted { answer, count }) in batch.answers.into_iter().enumerate() {
                due.counts[k] = count as u32;
                match answer {
                    Err(refusal) => (due.numbers[k], due.places[k]) = (refusal.number, refusal.place),
                    Ok(choices) => {
                        let stretch = batches::stretch(&case.tables, case.match_room, k);
                        wanted[stretch].copy_from_slice(&choices);
                    }
                }
            }
            due
        }
    };
    assert!(cards == due, "{} answers {:?}, the reference {:?}, for\n{}", name, cards, due, case);
    assert!(inputs.unchanged(), "{} changed an input, for\n{}", name, case);
    judge_output(case, name, &lengths, &[]);
    judge_output(case, name, &shares, &[]);
    judge_output(case, name, &out, &wanted);
    cards
}

pub fn chosen(case: &Case) -> Answer {
    let mut random = noise(case);
    let inputs = LentInputs::new(&case.tables, &case.assignment, &mut random);
    let mut out: Lent<u16> = Lent::noise(case.chosen_room, &mut random);
    let (assignment, variable) = (inputs.assignment(), case.variable);
    let answer = capi::chosen(inputs.tables(), assignment, variable, out.slice_mut());
    let expected = reference::chosen(&case.tables, assignment, variable, case.chosen_room);
    let written = expected.clone().unwrap_or_default();
    judge(case, "hc_chosen", answer, expected.map(|list| list.len() as u64), &inputs);
    judge_output(case, "hc_chosen", &out, &written);
    answer
}

pub fn check_derivation(case: &Case) -> Answer {
    let mut random = noise(case);
    let inputs = LentInputs::new(&case.tables, &case.assignment, &mut random);
    let lines: Lent<u16> = Lent::holding(&case.lines, &mut random);
    let (assignment, pair) = (inputs.assignment(), case.pair);
    let answer = capi::check_derivation(inputs.tables(), assignment, pair, lines.slice());
    let expected = reference::check_derivation(&case.tables, assignment, pair, &case.lines);
    judge(case, "hc_check_derivation", answer, expected.map(|()| 0), &inputs);
    judge_output(case, "hc_check_derivation", &lines, &[]);
    answer
}

/// The writer, whose lines are open: both checkers accept them, no pair stands twice, and all
/// else is as it was lent. The lines written come with the answer.
pub fn derive(case: &Case) -> (Answer, Vec<u16>) {
    let expected = reference::derivable(&case.tables, &case.assignment, case.pair, case.line_room);
    derive_expecting(case, expected)
}

/// The writer, where it is known already whether there is a derivation.
pub fn derive_expecting(case: &Case, expected: Result<(), Refusal>) -> (Answer, Vec<u16>) {
    let mut random = noise(case);
    let inputs = LentInputs::new(&case.tables, &case.assignment, &mut random);
    let mut out: Lent<u16> = Lent::noise(case.line_room, &mut random);
    let answer = capi::derive(inputs.tables(), inputs.assignment(), case.pair, out.slice_mut());
    let count = if answer.number == 0 { answer.value } else { 0 };
    judge(case, "hc_derive", answer, expected.map(|()| count), &inputs);
    let fits = count <= case.line_room as u64 / 4;
    assert!(fits, "hc_derive claims {} lines, for\n{}", count, case);
    let written = out.slice()[..4 * count as usize].to_vec();
    judge_output(case, "hc_derive", &out, &written);
    if expected.is_ok() {
        judge_lines(case, &written);
    }
    (answer, written)
}

fn judge_lines(case: &Case, written: &[u16]) {
    let chosen = chosen_ids(&case.tables, &case.assignment);
    let fault = derivation::fault(&case.tables, &chosen, case.pair, written);
    assert!(fault.is_none(), "hc_derive: fault at {:?} of {:?}, for\n{}", fault, written, case);
    let answer = capi::check_derivation(case.tables.lend(), &case.assignment, case.pair, written);
    let name = "hc_check_derivation";
    assert!(answer == Answer::done(0), "{}: {:?} for {:?}, for\n{}", name, answer, written, case);
    let mut pairs: Vec<derivation::Pair> =
        derivation::split(written).into_iter().map(derivation::pair).collect();
    pairs.sort_unstable();
    let twice = pairs.windows(2).find(|two| two[0] == two[1]);
    assert!(twice.is_none(), "hc_derive: {:?} in {:?}, for\n{}", twice, written, case);
}

/// The shown interpretation, row by row.
pub fn show(case: &Case) -> Answer {
    show_expecting(case, reference::show(&case.tables, &case.assignment, case.pair, case.row_room))
}

/// The same where the rows are known already.
pub fn show_expecting(case: &Case, expected: Result<Vec<u16>, Refusal>) -> Answer {
    let mut random = noise(case);
    let inputs = LentInputs::new(&case.tables, &case.assignment, &mut random);
    let mut out: Lent<u16> = Lent::noise(case.row_room, &mut random);
    let answer = capi::show(inputs.tables(), inputs.assignment(), case.pair, out.slice_mut());
    let written = expected.clone().unwrap_or_default();
    let count = expected.map(|rows| rows.len() as u64 / 4);
    judge(case, "hc_show", answer, count, &inputs);
    let mut both = out.slice().chunks_exact(4).zip(written.chunks_exact(4));
    if let Some((row, due)) = both.find(|(row, due)| row != due) {
        panic!("hc_show wrote {:?}, where {:?} is due, for\n{}", row, due, case);
    }
    judge_output(case, "hc_show", &out, &written);
    answer
}

/// Membership in the case's interpretation.
pub fn belongs(case: &Case) -> Answer {
    let expected = reference::belongs(&case.tables, &case.assignment, &case.stock, case.asked);
    belongs_expecting(case, expected)
}

/// The same where the answer is known already.
pub fn belongs_expecting(case: &Case, expected: Result<bool, Refusal>) -> Answer {
    let mut random = noise(case);
    let inputs = LentInputs::new(&case.tables, &case.assignment, &mut random);
    let rows: Lent<u16> = Lent::holding(&case.stock.rows, &mut random);
    let stock = (case.stock.size, rows.slice());
    let answer = capi::belongs(inputs.tables(), inputs.assignment(), stock, case.asked);
    judge(case, "hc_belongs", answer, expected.map(u64::from), &inputs);
    judge_output(case, "hc_belongs", &rows, &[]);
    answer
}

/// Every element and concept of an accepted case, asked one by one. Row x, column j of `members`:
/// element x is a member of concept j.
pub fn belongs_all(case: &Case, members: &[Vec<bool>]) {
    let mut asked = case.clone();
    for (x, row) in members.iter().enumerate() {
        for (j, &member) in row.iter().enumerate() {
            asked.asked = (j as u16, x as u16);
            belongs_expecting(&asked, Ok(member));
        }
    }
}

/// The case's held table, closed under the told assignment.
pub fn update_table(case: &Case) -> Answer {
    let name = "hc_update_table";
    let expected = reference::update_table(&case.tables, &case.told, &case.held);
    let mut random = noise(case);
    let inputs = LentInputs::new(&case.tables, &[], &mut random);
    let told: Lent<u16> = Lent::holding(&case.told, &mut random);
    let mut table: Lent<u8> = Lent::holding(&case.held, &mut random);
    let answer = capi::update_table(inputs.tables(), told.slice(), table.slice_mut());
    let due = expected.clone().unwrap_or_default();
    judge(case, name, answer, expected.map(|_| 0), &inputs);
    judge_output(case, name, &told, &[]);
    judge_rows(case, name, table.slice(), &due);
    judge_output(case, name, &table, &due);
    answer
}

/// The case's tables under new ids.
pub fn renumber(case: &Case) -> Answer {
    let name = "hc_renumber";
    let expected = reference::renumber(&case.tables, &case.order, case.renumbered_rooms);
    let mut random = noise(case);
    let inputs = LentInputs::new(&case.tables, &[], &mut random);
    let order: Lent<u16> = Lent::holding(&case.order, &mut random);
    let [mut concepts, mut inclusions, mut questions]: [Lent<u16>; 3] =
        case.renumbered_rooms.map(|room| Lent::noise(room, &mut random));
    let answer = capi::renumber(
        inputs.tables(),
        order.slice(),
        concepts.slice_mut(),
        inclusions.slice_mut(),
        questions.slice_mut(),
    );
    let due = expected.clone().unwrap_or_default();
    judge(case, name, answer, expected.map(|_| 0), &inputs);
    judge_output(case, name, &order, &[]);
    judge_output(case, name, &concepts, &due.concepts);
    judge_output(case, name, &inclusions, &due.inclusions);
    judge_output(case, name, &questions, &due.questions);
    answer
}

/// The four operations on tables, assignment and pair; for a case pasted back from a failure.
pub fn all(case: &Case) {
    check(case);
    atoms(case);
    table(case);
    decide(case);
}

/// The pairs of an accepted case, decided one by one, against one table of the reference.
pub fn decide_pairs(case: &Case, pairs: &[(u16, u16)]) {
    let inputs = LentInputs::new(&case.tables, &case.assignment, &mut noise(case));
    let relation = reference::relation(&case.tables, &case.assignment);
    let mut asked = case.clone();
    for &pair in pairs {
        asked.pair = pair;
        let answer = capi::subsumed(inputs.tables(), inputs.assignment(), pair);
        let holds = relation[usize::from(pair.0)][usize::from(pair.1)];
        judge(&asked, "hc_subsumed", answer, Ok(u64::from(holds)), &inputs);
    }
}

/// Random cases of each size for an operation that says yes or no. In a full run "yes", "no" and
/// "refused" have these shares, and each refusal of tables and assignment is seen.
pub fn yes_or_no(
    test: &str,
    make: fn(&mut Random, Size) -> Case,
    ask: fn(&Case) -> Answer,
    shares: [RangeInclusive<usize>; 3],
) {
    let seed = seed(test);
    let mut seen = [0; 17];
    let mut tally = Tally::new(test);
    for size in [Size::Small, Size::Medium, Size::Large] {
        for k in 0..cases(size) {
            let answer = ask(&make(&mut Random::for_case(seed, k), size));
            seen[usize::from(answer.number)] += 1;
            tally.case();
            tally.note("yes", answer == Answer::done(1));
            tally.note("no", answer == Answer::done(0));
            tally.note("refused", answer.number > 0);
        }
    }
    let mut refused = (1..10).filter(|&number| number != 8).chain([16]);
    let all_seen = refused.all(|number| seen[number] > 0);
    assert!(all_seen || !full_run(), "answers: {:?}", seen);
    let [yes, no, refused] = shares;
    tally.finish(&[("yes", yes), ("no", no), ("refused", refused)]);
}

/// A catalogue in OWL functional syntax, with buffers of these lengths. What is read must be accepted,
/// up to the number of atoms.
pub fn read_owl(text: &[u8], rooms: [usize; 2]) -> Catalogue {
    let mut random = Random::new(text.len() as u64 ^ 0x5eed);
    let lent = Lent::holding(text, &mut random);
    let mut concepts: Lent<u16> = Lent::noise(rooms[0], &mut random);
    let mut inclusions: Lent<u16> = Lent::noise(rooms[1], &mut random);
    let answer = capi::read_owl(lent.slice(), concepts.slice_mut(), inclusions.slice_mut());
    let shown = || format!("b\"{}\" ({} bytes), {:?}", text.escape_ascii(), text.len(), rooms);
    let expected = reference::read_owl(text, rooms);
    let wanted = match &expected {
        Ok(read) => Catalogue::done(read.concept_count() as u64, read.inclusions.len() as u64 / 2),
        Err(refusal) => Catalogue::refused(refusal.number, refusal.place),
    };
    assert!(
        answer == wanted,
        "hc_read_owl answers {:?}, the reference {:?}, for\n{}",
        answer,
        wanted,
        shown()
    );
    assert!(lent.unchanged(), "hc_read_owl changed the text, for\n{}", shown());
    let read = expected.unwrap_or_default();
    for (name, out, written) in
        [("entries", &concepts, &read.concepts), ("inclusions", &inclusions, &read.inclusions)]
    {
        assert!(
            out.holds(written),
            "hc_read_owl left the {} otherwise than {:?} and the rest kept, for\n{}",
            name,
            written,
            shown()
        );
    }
    let said = capi::check(read.lend());
    let accepted = [Answer::done(0), Answer::refused(7, 64)].contains(&said);
    assert!(accepted, "hc_check answers {:?} to what is read of\n{}", said, shown());
    answer
}

fn judge(
    case: &Case,
    name: &str,
    answer: Answer,
    expected: Result<u64, Refusal>,
    inputs: &LentInputs,
) {
    let wanted = match expected {
        Ok(value) => Answer::done(value),
        Err(refusal) => Answer::refused(refusal.number, refusal.place),
    };
    judge_answer(case, name, answer, wanted, inputs);
}

fn judge_answer(case: &Case, name: &str, answer: Answer, wanted: Answer, inputs: &LentInputs) {
    assert!(
        answer == wanted,
        "{} answers {:?}, the reference {:?}, for\n{}",
        name,
        answer,
        wanted,
        case
    );
    assert!(inputs.unchanged(), "{} changed an input, for\n{}", name, case);
}

fn judge_output<T: Noise>(case: &Case, name: &str, out: &Lent<T>, written: &[T]) {
    assert!(
        out.holds(written),
        "{} left its buffer otherwise than the {} elements due and the rest kept, for\n{}",
        name,
        written.len(),
        case
    );
}

/// Names the first pair at fault, which `judge_output` cannot.
fn judge_rows(case: &Case, name: &str, bytes: &[u8], written: &[u8]) {
    let fault = (0..written.len()).find(|&at| bytes[at] != written[at]);
    if let Some(at) = fault {
        let differing = (bytes[at] ^ written[at]).trailing_zeros() as usize;
        panic!(
            "{}: row {}, column {} should be {}, for\n{}",
            name,
            at / ROW_BYTES,
            at % ROW_BYTES * 8 + differing,
            written[at] >> differing & 1,
            case
        );
    }
}
