//! What a shift in which inclusions are added begins with (02, A.7): the tables before it, the table
//! that is held, and an assignment told as pairs.

use crate::damage;
use crate::generate;
use crate::layout::{self, Relation};
use crate::random::{Random, Size};
use crate::reference::atoms;
use crate::reference::model::Canonical;
use crate::tables::Tables;

/// The same tables before a shift: without one of the inclusions, many, all or none of them.
pub fn older(random: &mut Random, tables: &Tables) -> Tables {
    let mut pairs: Vec<&[u16]> = tables.inclusions.chunks_exact(2).collect();
    match random.below(8) {
        0 => {}
        1 => pairs.clear(),
        2 | 3 => {
            let kept = *random.pick(&[20, 50, 90]);
            pairs.retain(|_| random.percent(kept));
        }
        _ if pairs.is_empty() => {}
        _ => {
            pairs.remove(random.below(pairs.len()));
        }
    }
    Tables { inclusions: pairs.concat(), ..tables.clone() }
}

/// These ids of each variable as pairs of the variable and an id, in any order, some of them again.
pub fn told(random: &mut Random, chosen: &[Vec<usize>]) -> Vec<u16> {
    let mut pairs = Vec::new();
    for (variable, ids) in chosen.iter().enumerate() {
        pairs.extend(ids.iter().map(|&id| [variable as u16, id as u16]));
    }
    generate::mix(random, &mut pairs);
    pairs.concat()
}

/// What a held table may mark: what was right before a shift, that with damage, or any pairs, few,
/// many or none.
pub fn held_marks(random: &mut Random, tables: &Tables, chosen: &[Vec<usize>]) -> Relation {
    let count = tables.concept_count();
    match random.below(8) {
        0 | 1 => right_before(random, tables, chosen),
        2..=5 => {
            let mut marks = right_before(random, tables, chosen);
            damage::marks(random, &mut marks);
            marks
        }
        _ => {
            let share = *random.pick(&[0, 1, 3, 10, 50, 100]);
            let row = |random: &mut Random| (0..count).map(|_| random.percent(share)).collect();
            (0..count).map(|_| row(random)).collect()
        }
    }
}

fn right_before(random: &mut Random, tables: &Tables, chosen: &[Vec<usize>]) -> Relation {
    Canonical::build(&older(random, tables), chosen).members
}

/// These marks in a table of so many bytes; zeros or noise in bits past the last column and in
/// bytes past the last row.
pub fn held_table(random: &mut Random, marks: &Relation, room: usize) -> Vec<u8> {
    let noisy = random.percent(60);
    let byte = |random: &mut Random| if noisy { random.number() as u8 } else { 0 };
    let mut bytes: Vec<u8> = (0..room).map(|_| byte(random)).collect();
    layout::write(&mut bytes, marks);
    bytes
}

/// Older and newer tables, and one choice of ids under both: by its positions among the atoms of
/// each, and told as pairs.
pub struct Shift {
    pub older: Tables,
    pub newer: Tables,
    pub before: Vec<u64>,
    pub after: Vec<u64>,
    pub told: Vec<u16>,
}

impl Shift {
    /// Both must be accepted, and the newer tables have all inclusions of the older ones.
    pub fn new(random: &mut Random, older: Tables, newer: Tables) -> Shift {
        let before = generate::assignment(random, &older);
        let chosen = atoms::chosen(&older, &before);
        let atoms = atoms::list(&newer);
        let position =
            |id: &usize| atoms.iter().position(|atom| atom == id).expect("still an atom");
        let choice = |ids: &Vec<usize>| ids.iter().fold(0, |bits, id| bits | 1 << position(id));
        let after = chosen.iter().map(choice).collect();
        let told = told(random, &chosen);
        Shift { older, newer, before, after, told }
    }

    /// Random tables, mostly with inclusions, some with copies pasted in; none, one, many or all of
    /// the inclusions are new.
    pub fn random(random: &mut Random, size: Size) -> Shift {
        let mut newer = generate::valid(random, size);
        while newer.inclusions.is_empty() && random.percent(90) {
            newer = generate::valid(random, size);
        }
        if random.percent(25) {
            let most = random.between(1, 12);
            generate::paste_copies(random, &mut newer, most);
        }
        let older = older(random, &newer);
        Shift::new(random, older, newer)
    }

    /// The newer tables, and the same without their last inclusion.
    pub fn of_last(random: &mut Random, newer: Tables) -> Shift {
        let mut older = newer.clone();
        older.inclusions.truncate(newer.inclusions.len().saturating_sub(2));
        Shift::new(random, older, newer)
    }
}
