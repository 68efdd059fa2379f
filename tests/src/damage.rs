//! Faults put at random into tables, assignments, settings, interpretations, told pairs, held marks and
//! lists of new ids.

use crate::layout::Relation;
use crate::limits::*;
use crate::random::Random;
use crate::settings::Settings;
use crate::tables::{Stock, Tables};

/// One to three faults put into the tables; some leave them accepted.
pub fn tables(random: &mut Random, tables: &mut Tables) {
    let kinds = [
        ragged,
        overfull,
        noise_in_place,
        other_kind,
        forward_id,
        no_concept,
        variable_in_inclusion,
        variables_on_both_sides,
        fewer_variables,
        many_atoms,
        role_too_high,
    ];
    for _ in 0..random.between(1, 3) {
        random.pick(&kinds)(random, tables);
    }
}

fn any_list<'a>(random: &mut Random, tables: &'a mut Tables) -> &'a mut Vec<u16> {
    match random.below(4) {
        0 => &mut tables.concepts,
        1 => &mut tables.inclusions,
        2 => &mut tables.questions,
        _ => &mut tables.roles,
    }
}

fn ragged(random: &mut Random, tables: &mut Tables) {
    let longer = random.percent(50);
    let number = random.below(6) as u16;
    let list = any_list(random, tables);
    if longer {
        list.push(number);
    } else {
        list.pop();
    }
}

fn overfull(random: &mut Random, tables: &mut Tables) {
    let extra = random.below(3);
    match random.below(5) {
        0 => tables.concepts.resize(3 * (MAX_CONCEPTS + extra), 0),
        1 => tables.inclusions.resize(2 * (MAX_INCLUSIONS + extra), 0),
        2 => tables.questions.resize(2 * (MAX_QUESTIONS + extra), 0),
        3 => tables.roles.resize(2 * (MAX_ROLE_PAIRS + extra), 0),
        _ => tables.variables = *random.pick(&[8, 9, 255, 256, 65535]),
    }
}

/// Numbers at and next to a limit.
const TELLING: [u16; 17] =
    [0, 1, 2, 3, 4, 5, 8, 99, 100, 191, 192, 255, 256, 999, 1000, 32768, 65535];

fn telling_number(random: &mut Random, tables: &Tables) -> u16 {
    let count = tables.concept_count() as u16;
    let near = [count.wrapping_sub(1), count, count.wrapping_add(1)];
    let numbers: &[u16] = if random.percent(20) { &near } else { &TELLING };
    *random.pick(numbers)
}

fn noise_in_place(random: &mut Random, tables: &mut Tables) {
    let number = telling_number(random, tables);
    let at = random.number() as usize;
    let list = any_list(random, tables);
    if !list.is_empty() {
        let at = at % list.len();
        list[at] = number;
    }
}

fn other_kind(random: &mut Random, tables: &mut Tables) {
    if tables.concept_count() > 0 {
        let at = 3 * random.below(tables.concept_count());
        tables.concepts[at] = random.below(7) as u16;
    }
}

fn forward_id(random: &mut Random, tables: &mut Tables) {
    let holders: Vec<usize> =
        (0..tables.concept_count()).filter(|&id| matches!(tables.row(id)[0], 2 | 3)).collect();
    if !holders.is_empty() {
        let id = *random.pick(&holders);
        let field = if tables.row(id)[0] == 3 { random.between(1, 2) } else { 2 };
        let ahead = random.below(3);
        tables.concepts[3 * id + field] = (id + ahead) as u16;
    }
}

fn no_concept(random: &mut Random, tables: &mut Tables) {
    let beyond = tables.concept_count() as u16 + random.below(3) as u16;
    let id = *random.pick(&[beyond, 65535]);
    let at = random.number() as usize;
    let list = if random.percent(50) { &mut tables.inclusions } else { &mut tables.questions };
    if !list.is_empty() {
        let at = at % list.len();
        list[at] = id;
    }
}

/// The ids of kind 4, whatever else is wrong with the tables.
fn variable_rows(tables: &Tables) -> Vec<usize> {
    let is_variable = |&id: &usize| tables.row(id)[0] == 4;
    (0..tables.concept_count()).filter(is_variable).collect()
}

fn variable_in_inclusion(random: &mut Random, tables: &mut Tables) {
    let variables = variable_rows(tables);
    if !variables.is_empty() && !tables.inclusions.is_empty() {
        let at = random.below(tables.inclusions.len());
        tables.inclusions[at] = *random.pick(&variables) as u16;
    }
}

fn variables_on_both_sides(random: &mut Random, tables: &mut Tables) {
    let variables = variable_rows(tables);
    if !variables.is_empty() && tables.questions.len() >= 2 {
        let at = 2 * random.below(tables.questions.len() / 2);
        tables.questions[at] = *random.pick(&variables) as u16;
        tables.questions[at + 1] = *random.pick(&variables) as u16;
    }
}

fn fewer_variables(_: &mut Random, tables: &mut Tables) {
    tables.variables = tables.variables.saturating_sub(1);
}

/// 62 to 68 more names that stand in inclusions, mostly one of each, else copies of two; without
/// room for them, names and existentials at random in every inclusion.
fn many_atoms(random: &mut Random, tables: &mut Tables) {
    let more = 62 + 2 * random.below(4);
    let copies = random.percent(30);
    if tables.concept_count() + more <= MAX_CONCEPTS {
        for _ in 0..more / 2 {
            let id = tables.concept_count() as u16;
            let (one, other) = if copies { (7, 8) } else { (MAX_NAME - id, MAX_NAME - id - 1) };
            tables.concepts.extend([1, one, 0, 1, other, 0]);
            tables.inclusions.extend([id, id + 1]);
        }
        return;
    }
    let is_candidate = |&id: &usize| matches!(tables.row(id)[0], 1 | 2);
    let candidates: Vec<usize> = (0..tables.concept_count()).filter(is_candidate).collect();
    if !candidates.is_empty() {
        for id in &mut tables.inclusions {
            *id = *random.pick(&candidates) as u16;
        }
    }
}

/// A role past the last in one of the pairs, or in one more.
fn role_too_high(random: &mut Random, tables: &mut Tables) {
    let role = *random.pick(&[100, 101, 128, 255, 256, 65535]);
    if tables.roles.is_empty() || random.percent(30) {
        let pair = if random.percent(50) { [role, 0] } else { [MAX_ROLE, role] };
        tables.roles.extend(pair);
    } else {
        let at = random.below(tables.roles.len());
        tables.roles[at] = role;
    }
}

/// Another count of numbers, or one more bit.
pub fn assignment(random: &mut Random, choices: &mut Vec<u64>) {
    match random.below(3) {
        0 => choices.push(0),
        1 => drop(choices.pop()),
        _ => {
            if !choices.is_empty() {
                let at = random.below(choices.len());
                choices[at] |= 1 << random.below(64);
            }
        }
    }
}

/// Another number of settings, one more permitted bit, or a count at or over the limit; some leave
/// the settings accepted.
pub fn settings(random: &mut Random, settings: &mut Settings) {
    let Settings { permitted, largest } = settings;
    match random.below(6) {
        0 => permitted.push(0),
        1 => largest.push(0),
        2 => drop(permitted.pop()),
        3 => drop(largest.pop()),
        4 => assignment(random, permitted),
        _ => {
            if !largest.is_empty() {
                let at = random.below(largest.len());
                largest[at] = *random.pick(&[64, 65, 128, 256, 65535]);
            }
        }
    }
}

/// Another number of elements, ragged rows, or a row of another form or with an element that is not
/// there; some leave the interpretation accepted.
pub fn stock(random: &mut Random, stock: &mut Stock) {
    match random.below(8) {
        0 => stock.size = *random.pick(&[0, 192, 193, 194, 256, 65535]),
        1 => stock.rows.push(0),
        2 => drop(stock.rows.pop()),
        _ if stock.rows.len() >= 4 => {
            let row = 4 * random.below(stock.rows.len() / 4);
            let beyond = [stock.size, stock.size.wrapping_add(1), 192, 256, 65535];
            let field = *random.pick(&[0, 1, 3]);
            let number = if field == 0 { random.below(4) as u16 } else { *random.pick(&beyond) };
            stock.rows[row + field] = number;
        }
        _ => stock.rows.extend([2, 0, 0, 0]),
    }
}

/// A ragged list, a variable past the count, or an id that is no atom or a copy of one; some leave
/// the pairs accepted.
pub fn told(random: &mut Random, tables: &Tables, told: &mut Vec<u16>) {
    let count = tables.concept_count() as u16;
    let variables = tables.variables;
    if random.percent(30) {
        told.extend([0, 0]);
    }
    let pair = 2 * random.below(told.len() / 2 + 1);
    match random.below(6) {
        0 => told.push(0),
        1 => drop(told.pop()),
        _ if pair + 1 >= told.len() => told.extend([variables, 0]),
        2 => told[pair] = *random.pick(&[variables, variables.wrapping_add(1), 8, 256, 65535]),
        3 => told[pair + 1] = *random.pick(&[count, count.wrapping_add(1), 192, 256, 65535]),
        _ => told[pair + 1] = random.below(usize::from(count) + 1) as u16,
    }
}

/// A share of the marks cleared, or some added, or both.
pub fn marks(random: &mut Random, marks: &mut Relation) {
    let (cleared, added) = *random.pick(&[(2, 0), (20, 0), (50, 0), (0, 2), (0, 8), (20, 3)]);
    for mark in marks.iter_mut().flatten() {
        *mark = if *mark { !random.percent(cleared) } else { random.percent(added) };
    }
}

/// A number that is no id, or one that stands elsewhere too, numbers that lack or are too many, or two
/// that change places; some leave the list accepted.
pub fn order(random: &mut Random, tables: &Tables, order: &mut Vec<u16>) {
    let count = tables.concept_count() as u16;
    for _ in 0..random.between(1, 2) {
        let number = random.below(usize::from(count) + 2) as u16;
        let (place, other) = (random.below(order.len() + 1), random.below(order.len().max(1)));
        match random.below(10) {
            0 => order.truncate(place),
            1 => drop(order.pop()),
            2 => order.push(number),
            3 => order.insert(place, number),
            _ if place >= order.len() => order.push(number),
            4 | 5 => order[place] = *random.pick(&[count, count.wrapping_add(1), 192, 256, 65535]),
            6 | 7 => order[place] = order[other],
            _ => order.swap(place, other),
        }
    }
}
