//! One table without fault and single faults to put into it, each with the refusal it brings.
//! Every set of them can be put in at once, to see which check speaks first.

use crate::limits::{line_room, ATOM_ROOM, ROW_BYTES};
use crate::settings::Settings;
use crate::tables::{Case, Stock, Tables};

/// In the order of the checks, 4 with what is given alone first: 1 to 6, 16, 7, then 9, 19, 21, 22, 15, 8; and 1, 2, 4 of a given
/// interpretation. 9 is that of an assignment, or of one told as pairs; the last three are 8 of the
/// buffers for renumbered tables.
#[derive(Clone, Copy, Debug, PartialEq, Eq)]
pub enum Fault {
    Ragged,
    RaggedRoles,
    OutOfRange,
    ForwardId,
    LonePair,
    NoQuestion,
    NoConcept,
    VariableInInclusion,
    VariablesOnBothSides,
    RoleTooHigh,
    TooManyAtoms,
    AssignmentLength,
    BitPastAtoms,
    RaggedTold,
    NoAtomTold,
    NoVariableTold,
    ShortPermitted,
    LongLargest,
    PermittedPastAtoms,
    CountTooHigh,
    NoIdInOrder,
    RepeatedInOrder,
    ShortOrder,
    ForwardInOrder,
    PairHolds,
    ShortBuffer,
    RaggedRows,
    MalformedRow,
    NoConceptAsked,
    NoElementAsked,
    ShortConcepts,
    ShortInclusions,
    ShortQuestions,
}

/// Those of every operation but one that shows or is given an interpretation, is told pairs, has
/// settings, or gives new ids.
pub const FAULTS: [Fault; 13] = [
    Fault::Ragged,
    Fault::RaggedRoles,
    Fault::OutOfRange,
    Fault::ForwardId,
    Fault::LonePair,
    Fault::NoConcept,
    Fault::VariableInInclusion,
    Fault::VariablesOnBothSides,
    Fault::RoleTooHigh,
    Fault::TooManyAtoms,
    Fault::AssignmentLength,
    Fault::BitPastAtoms,
    Fault::ShortBuffer,
];

/// How many of them come first and are the tables', a pair given alone among them.
const OF_TABLES: usize = 10;

/// The faults of the tables, with or without that of a pair given alone.
pub fn table_faults(lone_pair: bool) -> Vec<Fault> {
    let mut faults = FAULTS[..OF_TABLES].to_vec();
    faults.retain(|&fault| lone_pair || fault != Fault::LonePair);
    faults
}

/// All faults but the buffer's: of the tables, the lone pair and the assignment.
pub fn faults_without_buffer() -> &'static [Fault] {
    &FAULTS[..OF_TABLES + 2]
}

/// For showing an interpretation: 15 stands between 9 and 8.
pub fn showing_faults() -> Vec<Fault> {
    [faults_without_buffer(), &[Fault::PairHolds, Fault::ShortBuffer]].concat()
}

/// For membership in a given one, whose own faults come last.
pub fn membership_faults() -> Vec<Fault> {
    let mut faults = faults_without_buffer().to_vec();
    faults.retain(|&fault| fault != Fault::LonePair);
    faults.extend([Fault::RaggedRows, Fault::MalformedRow]);
    faults.extend([Fault::NoConceptAsked, Fault::NoElementAsked]);
    faults
}

/// For updating a held table, whose assignment is told as pairs.
pub fn updating_faults() -> Vec<Fault> {
    let mut faults = table_faults(false);
    faults.extend([Fault::RaggedTold, Fault::NoAtomTold, Fault::NoVariableTold]);
    faults.push(Fault::ShortBuffer);
    faults
}

/// For matching within settings: 19 stands before 8.
pub fn settings_faults() -> Vec<Fault> {
    let mut faults = table_faults(false);
    faults.extend([Fault::ShortPermitted, Fault::LongLargest]);
    faults.extend([Fault::PermittedPastAtoms, Fault::CountTooHigh, Fault::ShortBuffer]);
    faults
}

/// For matching one group within settings: the question's place is judged where a pair given alone is.
pub fn group_faults() -> Vec<Fault> {
    let mut faults = settings_faults();
    let after = faults.iter().position(|&fault| fault == Fault::NoConcept).unwrap();
    faults.insert(after, Fault::NoQuestion);
    faults
}

/// For new ids: 21 and 22, and then 8 for each buffer in turn.
pub fn renumbering_faults() -> Vec<Fault> {
    let mut faults = table_faults(false);
    faults.extend([Fault::NoIdInOrder, Fault::RepeatedInOrder, Fault::ShortOrder]);
    faults.push(Fault::ForwardInOrder);
    faults.extend([Fault::ShortConcepts, Fault::ShortInclusions, Fault::ShortQuestions]);
    faults
}

/// A pair of the base table that does not hold: top and a name.
pub const FAILING: (u16, u16) = (0, 3);
/// Rows of the interpretation that shows this, all of names: 65 on the names, 30 more by
/// inclusions, 20 on the conjunctions.
pub const SHOWN_ROWS: usize = 115;

// Ids of the base table that only faults use.
const VARIABLE: u16 = 2;
const FIVE_NAMES: u16 = 72;
const CHANGED_KIND: usize = 73;
const CHANGED_INNER: usize = 74;
const COUNT: usize = 75;

/// 75 concepts, 31 inclusions, 1 question, 2 role pairs, 2 variables, 60 atoms; an interpretation
/// of two elements, of which the first is a member of the concept asked for; settings that permit
/// all, three told pairs, a held table with marks everywhere, and a list that turns the names round.
pub fn base() -> Case {
    let mut rows: Vec<[u16; 3]> = vec![[0, 0, 0], [4, 1, 0], [4, 0, 0]];
    rows.extend((3..68).map(|name| [1, name, 0]));
    rows.extend([[3, 63, 64], [3, 65, 66], [3, 68, 69], [3, 70, 67]]);
    assert_eq!(rows.len(), usize::from(FIVE_NAMES));
    rows.extend([[3, 71, 71], [0, 0, 0], [3, 3, 4]]);
    assert_eq!(rows.len(), COUNT);
    let mut inclusions: Vec<[u16; 2]> = (0..30).map(|k| [3 + 2 * k, 4 + 2 * k]).collect();
    inclusions.push([3, 0]);
    let tables = Tables::new(&rows, &inclusions, &[[VARIABLE, 0]], 2);
    let tables = tables.with_roles(&[[7, 99], [99, 0]]);
    let mut case = Case::new(tables, &[0, 0]);
    case.settings = Settings::open(&case.tables);
    case.row_room = 4 * SHOWN_ROWS;
    case.stock = Stock::new(2, &[[0, 1, 9, 0], [1, 0, 99, 1], [0, 0, 3, 0]]);
    case.asked = (3, 0);
    case.told = [[0, 3], [1, 62], [0, 3]].concat();
    case.held = vec![0x5a; COUNT * ROW_BYTES];
    case.order[3..68].reverse();
    case
}

impl Fault {
    /// The refusal that this fault alone brings. A short buffer's place is the operation's; the
    /// one here is the subsumption table's.
    pub fn refusal(self) -> (u16, u64) {
        match self {
            Fault::Ragged => (1, 2),
            Fault::RaggedRoles => (1, 4),
            Fault::OutOfRange => (2, CHANGED_KIND as u64),
            Fault::ForwardId => (3, CHANGED_INNER as u64),
            Fault::LonePair | Fault::NoQuestion => (4, 0),
            Fault::NoConcept => (4, 31),
            Fault::VariableInInclusion => (5, 31),
            Fault::VariablesOnBothSides => (6, 1),
            Fault::RoleTooHigh => (16, 2),
            Fault::TooManyAtoms => (7, 64),
            Fault::AssignmentLength => (9, 2),
            Fault::BitPastAtoms => (9, 1),
            Fault::RaggedTold => (9, 0),
            Fault::NoAtomTold => (9, 1),
            Fault::NoVariableTold => (9, 2),
            Fault::ShortPermitted => (19, 2),
            Fault::LongLargest => (19, 2),
            Fault::PermittedPastAtoms => (19, 0),
            Fault::CountTooHigh => (19, 1),
            Fault::NoIdInOrder => (21, 40),
            Fault::RepeatedInOrder => (21, 50),
            Fault::ShortOrder => (21, COUNT as u64 - 1),
            Fault::ForwardInOrder => (22, u64::from(FIVE_NAMES)),
            Fault::PairHolds => (15, 0),
            Fault::ShortBuffer => (8, (COUNT * ROW_BYTES) as u64),
            Fault::RaggedRows => (1, 0),
            Fault::MalformedRow => (2, 3),
            Fault::NoConceptAsked => (4, 0),
            Fault::NoElementAsked => (4, 1),
            Fault::ShortConcepts => (8, 3 * COUNT as u64),
            Fault::ShortInclusions => (8, 2 * 31),
            Fault::ShortQuestions => (8, 2),
        }
    }

    /// Faults are put in in the order of FAULTS, so that the places above stay right for the
    /// first of them.
    pub fn put_into(self, case: &mut Case) {
        let tables = &mut case.tables;
        match self {
            Fault::Ragged => tables.questions.push(0),
            Fault::RaggedRoles => tables.roles.push(0),
            Fault::OutOfRange => tables.concepts[3 * CHANGED_KIND] = 5,
            Fault::ForwardId => tables.concepts[3 * CHANGED_INNER + 2] = CHANGED_INNER as u16,
            Fault::LonePair => case.pair = (0, COUNT as u16),
            Fault::NoQuestion => case.question = 2,
            Fault::NoConcept => tables.inclusions.extend([COUNT as u16, 0]),
            Fault::VariableInInclusion => tables.inclusions.extend([0, VARIABLE]),
            Fault::VariablesOnBothSides => tables.questions.extend([VARIABLE, 1]),
            Fault::RoleTooHigh => tables.roles.extend([99, 100]),
            Fault::TooManyAtoms => tables.inclusions.extend([FIVE_NAMES, 0]),
            Fault::AssignmentLength => case.assignment.push(0),
            Fault::BitPastAtoms => case.assignment[1] |= 1 << 60,
            Fault::RaggedTold => case.told.push(0),
            Fault::NoAtomTold => case.told[3] = 63,
            Fault::NoVariableTold => case.told[4] = 2,
            Fault::ShortPermitted => drop(case.settings.permitted.pop()),
            Fault::LongLargest => case.settings.largest.push(64),
            Fault::PermittedPastAtoms => case.settings.permitted[0] |= 1 << 60,
            Fault::CountTooHigh => case.settings.largest[1] = 65,
            Fault::NoIdInOrder => case.order[40] = COUNT as u16,
            Fault::RepeatedInOrder => case.order[50] = case.order[3],
            Fault::ShortOrder => drop(case.order.pop()),
            // the row and its inner one change places
            Fault::ForwardInOrder => {
                case.order.swap(usize::from(FIVE_NAMES), usize::from(FIVE_NAMES) - 1)
            }
            Fault::PairHolds => tables.inclusions.extend([FAILING.0, FAILING.1]),
            Fault::ShortBuffer => {
                case.table_room = COUNT * ROW_BYTES - 1;
                case.atom_room = ATOM_ROOM - 1;
                case.match_room = 1;
                case.chosen_room = ATOM_ROOM - 1;
                case.line_room = line_room(COUNT) - 1;
                case.row_room = 4 * SHOWN_ROWS - 1;
                case.held.pop();
            }
            Fault::RaggedRows => case.stock.rows.push(0),
            Fault::MalformedRow => case.stock.rows.extend([2, 0, 0, 0]),
            Fault::NoConceptAsked => case.asked.0 = COUNT as u16,
            Fault::NoElementAsked => case.asked.1 = case.stock.size,
            Fault::ShortConcepts => case.renumbered_rooms[0] -= 1,
            Fault::ShortInclusions => case.renumbered_rooms[1] -= 1,
            Fault::ShortQuestions => case.renumbered_rooms[2] -= 1,
        }
    }
}

/// Every set of the given faults in one case each, with the faults put in, first to speak first.
pub fn every_set(faults: &[Fault]) -> Vec<(Case, Vec<Fault>)> {
    let of_set = |set: u32| {
        let chosen: Vec<Fault> =
            (0..faults.len()).filter(|k| set >> k & 1 == 1).map(|k| faults[k]).collect();
        let mut case = base();
        chosen.iter().for_each(|fault| fault.put_into(&mut case));
        (case, chosen)
    };
    (0..1u32 << faults.len()).map(of_set).collect()
}
