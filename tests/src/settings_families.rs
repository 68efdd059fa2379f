//! Cards that settings make hard: goals that each want one of some parts, and largest counts with
//! which that is just possible or just not. Each says what is known of its answer.

use crate::builder::Builder;
use crate::hard::{self, Hard, Known};
use crate::limits::*;
use crate::planted;
use crate::random::Random;
use crate::reference::{self, atoms, refusals};
use crate::settings::Settings;
use crate::tables::{Case, Tables};

pub struct Within {
    pub label: String,
    pub tables: Tables,
    pub settings: Settings,
    pub known: Known,
}

impl Within {
    pub fn case(&self) -> Case {
        let mut case = Case::new(self.tables.clone(), &[]);
        case.settings = self.settings.clone();
        case
    }
}

fn within(label: String, tables: Tables, settings: Settings, known: Known) -> Within {
    assert_eq!(reference::check(&tables), Ok(()), "{} is refused:\n{}", label, tables);
    let checked = refusals::of_settings(&tables, &settings);
    assert_eq!(checked, Ok(()), "{}: {} is refused for\n{}", label, settings, tables);
    Within { label, tables, settings, known }
}

/// The parts, by number, of which a goal wants one.
type Goal = Vec<usize>;

/// Whether so many parts reach all goals: of the first goal that is not reached, each is tried.
fn can_reach(goals: &[Goal], taken: &mut Vec<usize>, most: usize) -> bool {
    let reached = |goal: &&Goal| goal.iter().any(|part| taken.contains(part));
    let goal = match goals.iter().find(|goal| !reached(goal)) {
        None => return true,
        Some(_) if taken.len() == most => return false,
        Some(goal) => goal,
    };
    goal.iter().any(|&part| {
        taken.push(part);
        let can = can_reach(goals, taken, most);
        taken.pop();
        can
    })
}

/// The fewest parts that reach all goals; slow where goals share little.
fn fewest(goals: &[Goal]) -> usize {
    let can = |most: &usize| can_reach(goals, &mut Vec::new(), *most);
    (0..=goals.len()).find(can).expect("one part for each goal is enough")
}

/// Each variable is to reach every goal, by names below it, and has a largest count; so many parts
/// are needed. The goals themselves are barred.
fn reaching(label: &str, goals: &[Goal], needed: usize, largest: &[usize]) -> Within {
    let mut b = Builder::default();
    let parts = 1 + goals.iter().flatten().max().expect("a goal that wants something");
    let names = b.names(parts);
    let above = b.names(goals.len());
    for (goal, &id) in goals.iter().zip(&above) {
        b.inclusions.extend(goal.iter().map(|&part| [names[part], id]));
    }
    for _ in largest {
        let x = b.variable();
        above.iter().for_each(|&id| b.ask(x, id));
    }
    let tables = b.tables();
    let permitted = positions(&tables, |id| id < parts);
    let counts: Vec<u16> = largest.iter().map(|&most| most as u16).collect();
    let settings = Settings::new(&vec![permitted; largest.len()], &counts);
    let least = *largest.iter().min().expect("a variable");
    let known = if least >= needed { Known::Solvable } else { Known::Unsolvable };
    within(format!("{}, {} at most", label, least), tables, settings, known)
}

/// The choice of the atoms with these ids.
fn positions(tables: &Tables, wanted: impl Fn(usize) -> bool) -> u64 {
    let list = atoms::list(tables);
    (0..list.len()).filter(|&k| wanted(list[k])).fold(0, |choice, k| choice | 1 << k)
}

/// One less than needed, and just enough, for one variable.
fn too_few_and_enough(label: &str, goals: &[Goal], needed: usize) -> [Within; 2] {
    [needed - 1, needed].map(|most| reaching(label, goals, needed, &[most]))
}

/// Goals that share no part: those of a goal stand one after another, or goals take turns.
fn apart(goals: usize, width: usize, in_turn: bool) -> Vec<Goal> {
    let part = |goal: usize, k: usize| if in_turn { k * goals + goal } else { goal * width + k };
    (0..goals).map(|goal| (0..width).map(|k| part(goal, k)).collect()).collect()
}

pub fn goals_apart(goals: usize, width: usize, in_turn: bool) -> [Within; 2] {
    let turns = if in_turn { ", in turn" } else { "" };
    let label = format!("{} goals of {} parts{}", goals, width, turns);
    too_few_and_enough(&label, &apart(goals, width, in_turn), goals)
}

/// The same goals for each of several variables, of which only the last has too few, or none.
pub fn goals_of_several(variables: usize, goals: usize, width: usize) -> [Within; 2] {
    let label = format!("{} blanks, {} goals of {} parts", variables, goals, width);
    [goals - 1, goals].map(|last| {
        let mut largest = vec![goals; variables];
        largest[variables - 1] = last;
        reaching(&label, &apart(goals, width, false), goals, &largest)
    })
}

/// Each of some random edges wants one of its two ends.
pub fn covering(nodes: usize, edges: usize, seed: u64) -> [Within; 2] {
    let label = format!("covering {} edges, {} nodes", edges, nodes);
    let goals = random_goals(nodes, edges, 2, seed);
    too_few_and_enough(&label, &goals, fewest(&goals))
}

/// Goals of random parts, many of which several goals share.
pub fn overlapping(parts: usize, goals: usize, width: usize, seed: u64) -> [Within; 2] {
    let label = format!("{} goals of {} of {} parts, seed {}", goals, width, parts, seed);
    let goals = random_goals(parts, goals, width, seed);
    too_few_and_enough(&label, &goals, fewest(&goals))
}

fn random_goals(parts: usize, goals: usize, width: usize, seed: u64) -> Vec<Goal> {
    let mut random = Random::new(seed);
    let mut order: Vec<usize> = (0..parts).collect();
    let mut goal = || {
        random.shuffle(&mut order);
        order[..width].to_vec()
    };
    (0..goals).map(|_| goal()).collect()
}

/// Goals that any variable may reach for all, a part for each: one goal more than all variables
/// together may take, or as many.
pub fn shared_out(variables: usize, each: usize) -> [Within; 2] {
    [variables * each + 1, variables * each].map(|count| {
        let mut b = Builder::default();
        let names = b.names(count);
        let goals = b.names(count);
        let mut said = Vec::new();
        for role in 0..variables as u16 {
            for (&name, &goal) in names.iter().zip(&goals) {
                let some = b.some(role, name);
                b.inclusions.push([some, goal]);
            }
            let x = b.variable();
            said.push(b.some(role, x));
        }
        let left = b.all(&said);
        goals.iter().for_each(|&goal| b.ask(left, goal));
        let tables = b.tables();
        let permitted = positions(&tables, |id| id < count);
        let settings = Settings::new(&vec![permitted; variables], &vec![each as u16; variables]);
        let known = if count > variables * each { Known::Unsolvable } else { Known::Solvable };
        let label = format!("{} goals shared out, {} blanks, {} at most", count, variables, each);
        within(label, tables, settings, known)
    })
}

/// Needs on a condition. The second variable reaches all its goals by one part, or else each by one of
/// its own. The first is to reach as many goals, each by an early or a late part; a late one goes not
/// together with that one part. So with too few parts the second takes it, and the first no late ones.
pub fn on_condition(goals: usize, width: usize) -> [Within; 2] {
    [goals - 1, goals].map(|most| {
        let mut b = Builder::default();
        let [early, late] = [(); 2].map(|()| b.names(goals));
        let (one, own) = (b.name(), b.names(goals * width));
        let [first, second] = [(); 2].map(|()| b.names(goals));
        for k in 0..goals {
            b.inclusions.extend([[early[k], first[k]], [late[k], first[k]], [one, second[k]]]);
            b.inclusions.extend(own[k * width..][..width].iter().map(|&id| [id, second[k]]));
        }
        let (x, y) = (b.variable(), b.variable());
        first.iter().for_each(|&goal| b.ask(x, goal));
        second.iter().for_each(|&goal| b.ask(y, goal));
        let (any_x, any_y) = ([&early[..], &late].concat(), [&[one], &own[..]].concat());
        let without_late = both(&mut b, &early, &any_y);
        let without_one = both(&mut b, &any_x, &own);
        let left = b.witnesses(2, &[without_late, without_one]);
        let right = both(&mut b, &[x], &[y]);
        let right = b.some(2, right);
        b.ask(left, right);
        let tables = b.tables();
        let of = |ids: &[u16]| positions(&tables, |id| ids.contains(&(id as u16)));
        let settings = Settings::new(&[of(&any_x), of(&any_y)], &[MAX_ATOMS as u16, most as u16]);
        let last: Vec<u16> = own.chunks(width).map(|ids| ids[width - 1]).collect();
        let answer = if most < goals { [of(&early), of(&[one])] } else { [of(&late), of(&last)] };
        let label = format!("{} goals of {} parts or one, {} at most", goals, width, most);
        within(label, tables.clone(), settings, Known::First(answer.to_vec()))
    })
}

/// What has a link to all of the first by role 0, and to all of the second by role 1.
fn both(b: &mut Builder, first: &[u16], second: &[u16]) -> u16 {
    let [first, second] = [first, second].map(|ids| b.all(ids));
    let (first, second) = (b.some(0, first), b.some(1, second));
    b.and(first, second)
}

/// Flours only for every second variable, two parts at most for the others: each is to be of a goal
/// that flours and others reach, and the last of one that no flour reaches, or that one does.
pub fn flours(variables: usize, parts: usize) -> [Within; 2] {
    [false, true].map(|reached| {
        let mut b = Builder::default();
        let names = b.names(parts);
        let (goal, last) = (b.name(), b.name());
        b.inclusions.extend(names.iter().map(|&name| [name, goal]));
        b.inclusions.push([names[if reached { parts / 2 - 1 } else { parts / 2 }], last]);
        let all: Vec<u16> = (0..variables).map(|_| b.variable()).collect();
        all.iter().for_each(|&x| b.ask(x, goal));
        b.ask(all[variables - 1], last);
        let tables = b.tables();
        let flours = positions(&tables, |id| id < parts / 2);
        let any = positions(&tables, |id| id < parts);
        let of = |k: usize| if k % 2 == 1 { (flours, MAX_ATOMS as u16) } else { (any, 2) };
        let (permitted, largest): (Vec<u64>, Vec<u16>) = (0..variables).map(of).unzip();
        let known = if reached { Known::Solvable } else { Known::Unsolvable };
        let which = if reached { "reached" } else { "not reached" };
        let label = format!("flours only, {}", which);
        within(label, tables, Settings::new(&permitted, &largest), known)
    })
}

/// A problem at the limits that needs a search, with some of its parts barred and this largest count.
pub fn planted_at_the_limits(shape: usize, largest: u16, seed: u64) -> Within {
    let mut random = Random::new(seed);
    let problem = planted::problem(&mut random, planted::FULL[shape]);
    let tables = planted::fill_up(&mut random, problem);
    let mut settings = Settings::counted(&tables, largest);
    settings.permitted.iter_mut().for_each(|permitted| {
        *permitted &= random.number() | random.number() | random.number();
    });
    let label = format!("planted, {} blanks, {} at most", tables.variables, largest);
    within(label, tables, settings, Known::Open)
}

/// A hard problem without settings, with all atoms and this largest count.
fn counted(problem: Hard, largest: u16) -> Within {
    let settings = Settings::counted(&problem.tables, largest);
    let known = match problem.known {
        Known::Unsolvable => Known::Unsolvable,
        _ => Known::Open,
    };
    within(format!("{}, {} at most", problem.label, largest), problem.tables, settings, known)
}

/// At small size.
pub fn small(seed: u64) -> Vec<Within> {
    let mut problems = Vec::new();
    problems.extend(goals_apart(3, 2, false));
    problems.extend(goals_apart(4, 3, true));
    problems.extend(goals_of_several(3, 3, 3));
    problems.extend(covering(6, 8, seed));
    problems.extend(overlapping(10, 6, 3, seed));
    problems.extend(shared_out(3, 1));
    problems.extend(on_condition(3, 2));
    problems.extend(flours(4, 8));
    problems
}

/// At the size that the tables have room for.
pub fn large(seed: u64) -> Vec<Within> {
    let mut problems = Vec::new();
    for (goals, width) in [(4, 15), (6, 9), (8, 7), (10, 5), (16, 3)] {
        problems.extend(goals_apart(goals, width, false));
    }
    problems.extend(goals_apart(8, 7, true));
    problems.extend(goals_of_several(8, 4, 15));
    problems.extend(covering(16, 32, seed));
    problems.extend(covering(24, 32, seed));
    problems.extend(overlapping(32, 16, 6, seed));
    problems.extend(overlapping(40, 24, 4, seed));
    problems.extend(overlapping(52, 8, 12, seed));
    problems.extend(shared_out(5, 1));
    problems.extend(shared_out(2, 5));
    problems.extend(on_condition(4, 8));
    problems.extend(on_condition(8, 3));
    problems.extend(flours(8, 62));
    problems.extend((0..3).map(|shape| planted_at_the_limits(shape, 2, seed)));
    problems.extend((0..3).map(|shape| planted_at_the_limits(shape, 4, seed)));
    problems.push(counted(hard::needed_and_forbidden(60), 2));
    problems.push(counted(hard::clauses_over_one(8, 24, seed), 8));
    problems
}

/// Those with the most to search: of 200 seeds of their family the one that takes longest, goals shared
/// out and needs on a condition at the size that the tables have room for.
pub fn hardest() -> Vec<Within> {
    let mut problems = Vec::new();
    problems.extend(overlapping(40, 24, 4, 94));
    problems.extend(overlapping(32, 32, 3, 103));
    problems.extend(overlapping(48, 16, 6, 176));
    problems.extend(shared_out(6, 1));
    problems.extend(shared_out(4, 2));
    problems.extend(shared_out(3, 3));
    problems.extend(on_condition(6, 6));
    problems
}
