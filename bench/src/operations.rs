//! Every operation of the C interface as one call on one kind of input.

use hermitcasket_tests::capi::{self, Answer};
use hermitcasket_tests::families::{Family, FAMILIES};
use hermitcasket_tests::generate::failing_pair;
use hermitcasket_tests::hard::{self, Hard};
use hermitcasket_tests::limits::*;
use hermitcasket_tests::nested::{crowd, tower, tower_over_choice, Large, APART};
use hermitcasket_tests::orders::rising;
use hermitcasket_tests::owl::at_the_limits;
use hermitcasket_tests::random::Random;
use hermitcasket_tests::reference::atoms::chosen;
use hermitcasket_tests::settings::Settings;
use hermitcasket_tests::settings_families;
use hermitcasket_tests::shift::told;
use hermitcasket_tests::tables::{Stock, Tables};

use crate::stack::depth;

/// All that an operation is lent.
pub struct Input {
    pub label: String,
    tables: Tables,
    settings: Settings,
    assignment: Vec<u64>,
    pair: (u16, u16),
    lines: Vec<u16>,
    /// A pair that fails, if there is one, and how many numbers its interpretation takes.
    failing: (u16, u16),
    shown: usize,
    /// A given interpretation.
    stock: Stock,
    /// The assignment as pairs.
    told: Vec<u16>,
    /// For each id its new one.
    order: Vec<u16>,
    /// Catalogues at the limits, the same in every input.
    texts: Vec<Vec<u8>>,
}

/// The families of catalogues at full size, without and with role pairs, hard problems, nested
/// existentials, and the families with settings. The others may take two parts a blank.
pub fn inputs() -> Vec<Input> {
    let catalogue = |&family: &Family| (family.label().to_string(), family.tables(MAX_CONCEPTS));
    let with_role_pairs = |&family: &Family| {
        let label = format!("{}, 32 role pairs", family.label());
        (label, family.tables_with_role_pairs(MAX_CONCEPTS))
    };
    let mut problems = hard::with_harmless(60);
    problems.extend(hard::at_the_limits(1));
    problems.extend(hard::large_random_puzzles(1));
    problems.extend(hard::large_fixed_puzzles());
    problems.extend(hard::spread_over_roles(1));
    let problem = |problem: Hard| (problem.label, problem.tables);
    let nested = [
        ("nested".to_string(), tower(190)),
        ("nested, through a blank".to_string(), tower_over_choice()),
        ("nested, the most rows".to_string(), Large::over_name().tables),
    ];
    let catalogues = FAMILIES.iter().map(catalogue).chain(FAMILIES.iter().map(with_role_pairs));
    let problems = problems.into_iter().map(problem);
    let mut inputs: Vec<Input> = catalogues.chain(problems).chain(nested).map(input).collect();
    let with_settings = [settings_families::large(1), settings_families::hardest()];
    inputs.extend(with_settings.into_iter().flatten().map(|problem| Input {
        settings: problem.settings,
        ..input((problem.label, problem.tables))
    }));
    inputs
}

/// With the first solution, or nothing chosen, and of some pairs the one with the longest
/// derivation.
fn input((label, tables): (String, Tables)) -> Input {
    let mut assignment = vec![0; usize::from(tables.variables)];
    capi::find(tables.lend(), &mut assignment);
    let count = tables.concept_count() as u16;
    let tried = (0..count).step_by(16).map(|k| (k, (7 * k + 5) % count)).chain([(0, 0)]);
    let with_lines = |pair: (u16, u16)| (derivation(&tables, &assignment, pair), pair);
    let (lines, pair) = tried.map(with_lines).max_by_key(|found| found.0.len()).expect("a pair");
    let (failing, shown) = shown(&tables, &assignment);
    let stock = crowd(&mut Random::new(1), 2_000, APART);
    let told = told(&mut Random::new(1), &chosen(&tables, &assignment));
    let order = rising(&mut Random::new(1), &tables);
    let texts = at_the_limits().into_iter().map(|(_, text)| text).collect();
    let settings = Settings::counted(&tables, 2);
    Input {
        label,
        tables,
        settings,
        assignment,
        pair,
        lines,
        failing,
        shown,
        stock,
        told,
        order,
        texts,
    }
}

/// A pair that fails, and the length that its interpretation wants; else a pair that holds.
fn shown(tables: &Tables, assignment: &[u64]) -> ((u16, u16), usize) {
    let pair = failing_pair(&mut Random::new(1), tables, assignment);
    let wanted = |pair| capi::show(tables.lend(), assignment, pair, &mut []).place as usize;
    pair.map_or(((0, 0), 0), |pair| (pair, wanted(pair)))
}

/// No lines where the pair is not below.
fn derivation(tables: &Tables, assignment: &[u64], pair: (u16, u16)) -> Vec<u16> {
    let mut out = vec![0; line_room(tables.concept_count())];
    let answer = capi::derive(tables.lend(), assignment, pair, &mut out);
    out.truncate(4 * answer.value as usize);
    out
}

/// Output buffers, lent from the heap.
pub struct Room {
    ids: Vec<u16>,
    rows: Vec<u8>,
    choices: Vec<u64>,
    lines: Vec<u16>,
    shown: Vec<u16>,
    concepts: Vec<u16>,
    inclusions: Vec<u16>,
    questions: Vec<u16>,
}

impl Default for Room {
    fn default() -> Room {
        Room {
            ids: vec![0; ATOM_ROOM],
            rows: vec![0; MAX_CONCEPTS * ROW_BYTES],
            choices: vec![0; MAX_VARIABLES],
            lines: vec![0; line_room(MAX_CONCEPTS)],
            shown: vec![0; Large::over_name().rows().len()],
            concepts: vec![0; 3 * MAX_CONCEPTS],
            inclusions: vec![0; 2 * MAX_INCLUSIONS],
            questions: vec![0; 2 * MAX_QUESTIONS],
        }
    }
}

/// Decisions that are enough to go as deep as it goes.
const ALLOWANCE: u32 = 10_000;

pub type Operation = fn(&Input, &mut Room) -> Answer;

pub const OPERATIONS: [(&str, Operation); 18] = [
    ("hc_check", |input, _| capi::check(input.tables.lend())),
    ("hc_atoms", |input, room| capi::atoms(input.tables.lend(), &mut room.ids)),
    ("hc_blanks", |input, _| capi::blanks(input.tables.lend(), 0)),
    ("hc_subsumption_table", |input, room| {
        capi::subsumption_table(input.tables.lend(), &input.assignment, &mut room.rows)
    }),
    ("hc_subsumed", |input, _| capi::subsumed(input.tables.lend(), &input.assignment, input.pair)),
    ("hc_match", |input, room| capi::find(input.tables.lend(), &mut room.choices)),
    ("hc_match_within", |input, room| {
        let Settings { permitted, largest } = &input.settings;
        capi::find_within(input.tables.lend(), permitted, largest, &mut room.choices)
    }),
    ("hc_match_counted", |input, room| {
        let Settings { permitted, largest } = &input.settings;
        let out = &mut room.choices;
        capi::find_counted(input.tables.lend(), permitted, largest, ALLOWANCE, out)
    }),
    ("hc_match_group", |input, room| {
        let Settings { permitted, largest } = &input.settings;
        capi::find_group(input.tables.lend(), permitted, largest, 0, &mut room.choices)
    }),
    // the questions as one table
    ("hc_match_cards", |input, room| {
        let lengths = [input.tables.questions.len() as u16];
        let cards =
            capi::find_batch(input.tables.lend(), &lengths, &[ALLOWANCE], &mut room.choices);
        cards.answer(0)
    }),
    ("hc_chosen", |input, room| {
        capi::chosen(input.tables.lend(), &input.assignment, 0, &mut room.ids)
    }),
    ("hc_derive", |input, room| {
        capi::derive(input.tables.lend(), &input.assignment, input.pair, &mut room.lines)
    }),
    ("hc_check_derivation", |input, _| {
        capi::check_derivation(input.tables.lend(), &input.assignment, input.pair, &input.lines)
    }),
    ("hc_show", |input, room| {
        let rows = &mut room.shown[..input.shown];
        capi::show(input.tables.lend(), &input.assignment, input.failing, rows)
    }),
    ("hc_belongs", |input, _| {
        let last = input.tables.concept_count() as u16 - 1;
        let stock = (input.stock.size, &input.stock.rows[..]);
        capi::belongs(input.tables.lend(), &input.assignment, stock, (last, 0))
    }),
    // from no marks at all, which is the most to do
    ("hc_update_table", |input, room| {
        room.rows.fill(0);
        capi::update_table(input.tables.lend(), &input.told, &mut room.rows)
    }),
    ("hc_renumber", |input, room| {
        let Room { concepts, inclusions, questions, .. } = room;
        capi::renumber(input.tables.lend(), &input.order, concepts, inclusions, questions)
    }),
    // all texts, one after another
    ("hc_read_owl", |input, room| {
        let Room { concepts, inclusions, .. } = room;
        let read = |text: &Vec<u8>| capi::read_owl(text, concepts, inclusions);
        let last = input.texts.iter().map(read).last().expect("a text");
        Answer { number: last.number, place: last.place, value: last.concepts }
    }),
];

/// Bytes of stack that one call uses.
pub fn stack_bytes(operation: Operation, input: &Input, room: &mut Room) -> usize {
    depth(|| {
        operation(input, room);
    })
}
