//! Problems that need a search, with variables on the left of some questions and on the right of
//! others. A hidden assignment is drawn first, and the goals are made so that it reaches them
//! (planted). A loose goal is drawn without it: with some of these about half of the problems
//! have a solution.

use crate::builder::Builder;
use crate::limits::*;
use crate::random::Random;
use crate::reference::{self, atoms};
use crate::tables::Tables;

/// How much a problem has of everything.
#[derive(Clone, Copy, Debug)]
pub struct Shape {
    pub variables: usize,
    /// Names that the variables choose from.
    pub names: usize,
    /// Conjunctions of names, one of two of which a variable's choice must fit into, and the
    /// number of names in each.
    pub wides: usize,
    pub width: usize,
    /// Goals that each variable must reach, and goals that any of several variables may reach.
    pub own_goals: usize,
    pub joint_goals: usize,
    /// Ways to a goal, and goals in one question.
    pub ways: usize,
    pub together: usize,
    /// Chance in percent that a goal is loose.
    pub loose: usize,
    /// Existentials that both sides of each question stand below.
    pub depth: usize,
}

impl Shape {
    /// The same with every goal planted: always solvable.
    pub fn planted(self) -> Shape {
        Shape { loose: 0, ..self }
    }
}

/// Few enough choices to try every assignment.
pub const TINY: [Shape; 2] =
    [PLAIN, Shape { variables: 2, names: 3, width: 1, own_goals: 1, ways: 1, loose: 60, ..PLAIN }];

const PLAIN: Shape = Shape {
    variables: 1,
    names: 6,
    wides: 3,
    width: 2,
    own_goals: 4,
    joint_goals: 0,
    ways: 3,
    together: 2,
    loose: 100,
    depth: 0,
};

pub const MEDIUM: Shape = Shape {
    variables: 4,
    wides: 6,
    width: 3,
    own_goals: 3,
    joint_goals: 4,
    ways: 2,
    together: 1,
    loose: 30,
    ..PLAIN
};

/// As much as the tables have room for; `fill_up` brings them to the limits.
pub const FULL: [Shape; 3] = [
    Shape { names: 20, wides: 12, width: 8, own_goals: 20, together: 1, loose: 20, ..PLAIN },
    Shape {
        variables: 3,
        names: 12,
        wides: 10,
        width: 6,
        own_goals: 7,
        joint_goals: 4,
        together: 1,
        loose: 60,
        ..PLAIN
    },
    Shape {
        variables: 8,
        names: 8,
        wides: 10,
        width: 4,
        own_goals: 3,
        joint_goals: 8,
        ways: 2,
        loose: 20,
        ..PLAIN
    },
];

const IN_TOWERS: Shape = Shape { width: 3, own_goals: 3, ways: 2, together: 8, ..PLAIN };

/// Towers of 30, 12 and 5 existentials over variables.
pub const TOWERS: [Shape; 3] = [
    Shape { own_goals: 5, depth: 30, ..IN_TOWERS },
    Shape { variables: 2, depth: 12, ..IN_TOWERS },
    Shape { variables: 3, joint_goals: 4, loose: 50, depth: 5, ..IN_TOWERS },
];

/// Role of the witnesses; a variable's own role is its number, and towers have two of their own.
const WITNESS: u16 = 99;
const TOWER: [u16; 2] = [97, 98];

struct Maker<'a> {
    random: &'a mut Random,
    shape: Shape,
    b: Builder,
    names: Vec<u16>,
    /// Roles of a tower, the innermost first.
    roles: Vec<u16>,
    /// Positions in `names` of each wide, and "some" of it.
    wides: Vec<(Vec<usize>, u16)>,
    variables: Vec<u16>,
    /// For each variable the two wides, and the positions hidden in one of them.
    fits: Vec<[usize; 2]>,
    hidden: Vec<Vec<usize>>,
    /// "Some" of a name by a variable's role, made once: variable, position, id.
    literals: Vec<(usize, usize, u16)>,
}

/// A problem of this shape. The tables are accepted.
pub fn problem(random: &mut Random, shape: Shape) -> Tables {
    let mut b = Builder::default();
    let names = b.names(shape.names);
    let roles = (0..shape.depth).map(|_| *random.pick(&TOWER)).collect();
    let mut maker = Maker {
        random,
        shape,
        b,
        names,
        roles,
        wides: Vec::new(),
        variables: Vec::new(),
        fits: Vec::new(),
        hidden: Vec::new(),
        literals: Vec::new(),
    };
    maker.add_wides();
    (0..shape.variables).for_each(|_| maker.add_variable());
    maker.add_own_goals();
    maker.add_joint_goals();
    if shape.depth > 0 {
        maker.add_loop();
    }
    let tables = maker.b.tables();
    assert_eq!(reference::check(&tables), Ok(()), "{}", tables);
    tables
}

impl Maker<'_> {
    /// So many of the numbers below the bound, each once, in any order.
    fn some_below(&mut self, bound: usize, count: usize) -> Vec<usize> {
        let mut order: Vec<usize> = (0..bound).collect();
        self.random.shuffle(&mut order);
        order.truncate(count);
        order
    }

    fn tower(&mut self, id: u16) -> u16 {
        let roles = self.roles.clone();
        roles.iter().fold(id, |inner, &role| self.b.some(role, inner))
    }

    fn ask_in_towers(&mut self, left: u16, right: u16) {
        let (left, right) = (self.tower(left), self.tower(right));
        self.b.ask(left, right);
    }

    fn add_wides(&mut self) {
        for _ in 0..self.shape.wides {
            let positions = self.some_below(self.shape.names, self.shape.width);
            let ids: Vec<u16> = positions.iter().map(|&position| self.names[position]).collect();
            let wide = self.b.all(&ids);
            let some = self.b.some(WITNESS, wide);
            self.wides.push((positions, some));
        }
    }

    /// A variable, and a question with it on the right: its choice fits into one of two wides.
    /// What is hidden is a part of one of them. The two meet above the towers or below them.
    fn add_variable(&mut self) {
        let x = self.b.variable();
        self.variables.push(x);
        let two = self.some_below(self.shape.wides, 2);
        let (one, other) = (self.wides[two[0]].1, self.wides[two[1]].1);
        let right = self.b.some(WITNESS, x);
        if self.random.percent(50) {
            let left = self.b.and(one, other);
            self.ask_in_towers(left, right);
        } else {
            let (one, other) = (self.tower(one), self.tower(other));
            let (left, right) = (self.b.and(one, other), self.tower(right));
            self.b.ask(left, right);
        }
        let mut hidden = self.wides[two[self.random.below(2)]].0.clone();
        self.random.shuffle(&mut hidden);
        hidden.truncate(hidden.len().max(2) - 1);
        self.hidden.push(hidden);
        self.fits.push([two[0], two[1]]);
    }

    /// Questions with a variable on the left. It stands beside a marker: without one a goal, which
    /// may be chosen too, would fit wherever a name does that leads to it.
    fn add_own_goals(&mut self) {
        let marker = self.b.name();
        let names = self.names.clone();
        let marked: Vec<u16> = names.iter().map(|&name| self.b.and(name, marker)).collect();
        for variable in 0..self.shape.variables {
            let left = self.b.and(self.variables[variable], marker);
            let mut goals = Vec::new();
            for _ in 0..self.shape.own_goals {
                let goal = self.b.name();
                for position in self.own_ways(variable) {
                    self.b.inclusions.push([marked[position], goal]);
                }
                goals.push(goal);
            }
            self.ask_for(left, &goals);
        }
    }

    /// Positions of names, of which the variable hides one unless the goal is loose.
    fn own_ways(&mut self, variable: usize) -> Vec<usize> {
        let mut ways = self.some_below(self.shape.names, self.shape.ways);
        if !self.random.percent(self.shape.loose) {
            ways[0] = *self.random.pick(&self.hidden[variable]);
        }
        ways
    }

    fn ask_for(&mut self, left: u16, goals: &[u16]) {
        for some in goals.chunks(self.shape.together) {
            let right = self.b.all(some);
            self.ask_in_towers(left, right);
        }
    }

    /// Questions with all variables on the left: a name in any one of several reaches the goal.
    fn add_joint_goals(&mut self) {
        if self.shape.joint_goals == 0 {
            return;
        }
        let mut said = Vec::new();
        for variable in 0..self.shape.variables {
            said.push(self.b.some(variable as u16, self.variables[variable]));
        }
        let left = self.b.all(&said);
        let mut goals = Vec::new();
        for _ in 0..self.shape.joint_goals {
            let goal = self.b.name();
            for way in self.joint_ways() {
                self.b.inclusions.push([way, goal]);
            }
            goals.push(goal);
        }
        self.ask_for(left, &goals);
    }

    /// Names that would fit, of different variables; the first is hidden unless the goal is loose.
    fn joint_ways(&mut self) -> Vec<u16> {
        let loose = self.random.percent(self.shape.loose);
        let mut ways = Vec::new();
        for variable in self.some_below(self.shape.variables, self.shape.ways) {
            let wide = *self.random.pick(&self.fits[variable]);
            let mut position = *self.random.pick(&self.wides[wide].0);
            if ways.is_empty() && !loose {
                position = *self.random.pick(&self.hidden[variable]);
            }
            ways.push(self.literal(variable, position));
        }
        ways
    }

    fn literal(&mut self, variable: usize, position: usize) -> u16 {
        let known = self.literals.iter().find(|known| (known.0, known.1) == (variable, position));
        if let Some(&(_, _, id)) = known {
            return id;
        }
        let id = self.b.some(variable as u16, self.names[position]);
        self.literals.push((variable, position, id));
        id
    }

    /// As 01's card K, in a role of the towers: a name below "some" of itself, or the reverse.
    fn add_loop(&mut self) {
        let name = *self.random.pick(&self.names);
        let some = self.b.some(self.roles[0], name);
        let loops = if self.random.percent(50) { [name, some] } else { [some, name] };
        self.b.inclusions.push(loops);
    }
}

/// Fills the tables up to every limit with what changes no answer but the positions: names that are
/// atoms, inclusions of an atom in itself, questions asked before, and rows that nothing uses.
pub fn fill_up(random: &mut Random, mut tables: Tables) -> Tables {
    let mut list: Vec<u16> = atoms::list(&tables).iter().map(|&id| id as u16).collect();
    while tables.concept_count() < MAX_CONCEPTS {
        let id = tables.concept_count();
        if list.len() < MAX_ATOMS && tables.inclusions.len() < 2 * MAX_INCLUSIONS {
            tables.concepts.extend([1, MAX_NAME - id as u16, 0]);
            tables.inclusions.extend([id as u16; 2]);
            list.push(id as u16);
        } else {
            let role = *random.pick(&TOWER);
            tables.concepts.extend([2, role, random.below(id) as u16]);
        }
    }
    while tables.inclusions.len() < 2 * MAX_INCLUSIONS {
        tables.inclusions.extend([*random.pick(&list); 2]);
    }
    while tables.questions.len() < 2 * MAX_QUESTIONS {
        let again = 2 * random.below(tables.questions.len() / 2);
        tables.questions.extend_from_within(again..again + 2);
    }
    assert_eq!(reference::check(&tables), Ok(()), "{}", tables);
    tables
}

/// The tables with other questions, each of which alone has a solution and needs a choice for it:
/// those with variables on the left hold with every atom chosen and not with none, those with
/// variables on the right the other way round.
pub fn ask_open(random: &mut Random, mut tables: Tables, count: usize) -> Tables {
    tables.questions.clear();
    let list = atoms::list(&tables);
    let all = u64::MAX >> (MAX_ATOMS - list.len());
    let with_none = reference::relation(&tables, &vec![0; usize::from(tables.variables)]);
    let with_all = reference::relation(&tables, &vec![all; usize::from(tables.variables)]);
    let pattern = atoms::patterns(&tables);
    while tables.questions.len() < 2 * count {
        let (left, right) = (random.below(pattern.len()), random.below(pattern.len()));
        let (none, every) = (with_none[left][right], with_all[left][right]);
        // a right side without variables must bring no atom that is not there
        let on_the_left = pattern[left] && list.contains(&right) && every && !none;
        let on_the_right = !pattern[left] && pattern[right] && none && !every;
        // there are more of the latter: as many of each are asked
        let wanted = if tables.questions.len() % 4 == 0 { on_the_left } else { on_the_right };
        if wanted {
            tables.questions.extend([left as u16, right as u16]);
        }
    }
    assert_eq!(reference::check(&tables), Ok(()), "{}", tables);
    tables
}
