//! Catalogues in OWL functional syntax (02): classes and axioms, random ones, and their text.

use std::slice;

use crate::limits::{MAX_CONCEPTS, MAX_DEPTH, MAX_NAME, MAX_ROLE, MAX_TEXT};
use crate::random::{Random, Size};

#[derive(Clone, Debug, PartialEq, Eq, PartialOrd, Ord)]
pub enum Class {
    Thing,
    Name(u16),
    Some(u16, Box<Class>),
    /// Two or more.
    All(Vec<Class>),
}

/// The left is below the right.
#[derive(Clone, Debug, PartialEq, Eq, PartialOrd, Ord)]
pub struct Axiom {
    pub left: Class,
    pub right: Class,
}

impl Class {
    /// How many concepts it becomes.
    pub fn concepts(&self) -> usize {
        match self {
            Class::Thing | Class::Name(_) => 1,
            Class::Some(_, inner) => inner.concepts() + 1,
            Class::All(members) => {
                members.iter().map(Class::concepts).sum::<usize>() + members.len() - 1
            }
        }
    }

    /// How deep its deepest class is begun; it is 1 deep itself.
    pub fn depth(&self) -> usize {
        match self {
            Class::Thing | Class::Name(_) => 1,
            Class::Some(_, inner) => inner.depth() + 1,
            Class::All(members) => members.iter().map(Class::depth).max().unwrap_or(0) + 1,
        }
    }

    /// The names in it, with repeats.
    pub fn names(&self) -> Vec<u16> {
        match self {
            Class::Thing => Vec::new(),
            Class::Name(name) => vec![*name],
            Class::Some(_, inner) => inner.names(),
            Class::All(members) => members.iter().flat_map(Class::names).collect(),
        }
    }

    fn put(&self, tokens: &mut Vec<String>) {
        let mut word = |word: &str| tokens.push(word.to_string());
        match self {
            Class::Thing => word("owl:Thing"),
            Class::Name(name) => word(&format!(":c{}", name)),
            Class::Some(role, inner) => {
                ["ObjectSomeValuesFrom", "(", &format!(":r{}", role)].into_iter().for_each(word);
                inner.put(tokens);
                tokens.push(")".to_string());
            }
            Class::All(members) => {
                ["ObjectIntersectionOf", "("].into_iter().for_each(word);
                members.iter().for_each(|member| member.put(tokens));
                tokens.push(")".to_string());
            }
        }
    }
}

pub fn some(role: u16, inner: Class) -> Class {
    Class::Some(role, Box::new(inner))
}

/// So many "some", one inside the other, around the class.
pub fn tower(height: usize, role: u16, inner: Class) -> Class {
    (0..height).fold(inner, |inner, _| some(role, inner))
}

pub fn concepts(axioms: &[Axiom]) -> usize {
    axioms.iter().map(|axiom| axiom.left.concepts() + axiom.right.concepts()).sum()
}

/// The tokens of a run of axioms.
pub fn tokens(axioms: &[Axiom]) -> Vec<String> {
    let mut tokens = Vec::new();
    for axiom in axioms {
        tokens.extend(["SubClassOf", "("].map(String::from));
        axiom.left.put(&mut tokens);
        axiom.right.put(&mut tokens);
        tokens.push(")".to_string());
    }
    tokens
}

fn is_bracket(token: &str) -> bool {
    token == "(" || token == ")"
}

/// One space where two words would run together, and none elsewhere.
pub fn dense<T: AsRef<str>>(tokens: &[T]) -> Vec<u8> {
    let mut text = String::new();
    for (k, token) in tokens.iter().map(AsRef::as_ref).enumerate() {
        if k > 0 && !is_bracket(token) && !is_bracket(tokens[k - 1].as_ref()) {
            text.push(' ');
        }
        text += token;
    }
    text.into_bytes()
}

/// As suppliers write it, an axiom on a line.
pub fn lines(axioms: &[Axiom]) -> Vec<u8> {
    axioms
        .iter()
        .flat_map(|axiom| [dense(&tokens(slice::from_ref(axiom))), vec![b'\n']].concat())
        .collect()
}

/// Spaces and line ends put in at random, before the first token and behind the last too.
pub fn spaced<T: AsRef<str>>(random: &mut Random, tokens: &[T]) -> Vec<u8> {
    let chance = *random.pick(&[0, 5, 30, 100]);
    let mut text = Vec::new();
    for k in 0..=tokens.len() {
        let is_word = |k: usize| tokens.get(k).map_or(false, |token| !is_bracket(token.as_ref()));
        let least = usize::from(k > 0 && is_word(k) && is_word(k - 1));
        let more = if random.percent(chance) { random.between(0, 3) } else { 0 };
        text.extend((0..least.max(more)).map(|_| *random.pick(b" \n\r ")));
        if let Some(token) = tokens.get(k) {
            text.extend(token.as_ref().bytes());
        }
    }
    text
}

/// What random classes are made of.
struct Stuff {
    names: Vec<u16>,
    roles: Vec<u16>,
    /// Members of an intersection.
    members: usize,
    tops: usize,
    /// In percent: how often a class that may be larger is.
    growth: usize,
}

impl Stuff {
    fn new(random: &mut Random) -> Stuff {
        let mut names: Vec<u16> = (0..random.between(1, 12) as u16).collect();
        let mut roles: Vec<u16> = (0..random.between(1, 3) as u16).collect();
        if random.percent(30) {
            names.extend([9, 10, 99, 100, 101, MAX_NAME]);
            roles.extend([9, 10, MAX_ROLE]);
        }
        let members = *random.pick(&[2, 3, 3, 5, 12]);
        Stuff { names, roles, members, tops: random.below(25), growth: random.between(50, 95) }
    }

    /// A class of at most so many concepts, at most so deep.
    fn class(&self, random: &mut Random, concepts: usize, depth: usize) -> Class {
        if concepts < 2 || depth < 2 || !random.percent(self.growth) {
            return match random.percent(self.tops) {
                true => Class::Thing,
                false => Class::Name(*random.pick(&self.names)),
            };
        }
        if concepts < 3 || random.percent(45) {
            let inner = self.class(random, concepts - 1, depth - 1);
            return some(*random.pick(&self.roles), inner);
        }
        let count = random.between(2, self.members.min((concepts + 1) / 2));
        let mut left = concepts + 1 - 2 * count;
        let mut members = Vec::new();
        for _ in 0..count {
            let more = random.between(0, left);
            let member = self.class(random, 1 + more, depth - 1);
            left -= member.concepts() - 1;
            members.push(member);
        }
        random.shuffle(&mut members);
        Class::All(members)
    }
}

/// A random run of axioms within the limits. Large ones have up to all the concepts there may be, and
/// some are as deep as they may be.
pub fn catalogue(random: &mut Random, size: Size) -> Vec<Axiom> {
    let most = match size {
        Size::Small => random.between(0, 16),
        Size::Medium => random.between(10, 70),
        Size::Large if random.percent(40) => MAX_CONCEPTS,
        Size::Large => random.between(70, MAX_CONCEPTS),
    };
    let stuff = Stuff::new(random);
    let depth = *random.pick(&[2, 3, 5, 9, MAX_DEPTH]);
    let mut left = most;
    let mut axioms = Vec::new();
    while left > 1 {
        let share = random.between(1, left.min(40) - 1);
        let class = match random.percent(if size == Size::Large { 8 } else { 1 }) {
            true if left > MAX_DEPTH => deepest(random, &stuff),
            _ => stuff.class(random, share, depth),
        };
        left -= class.concepts();
        let share = random.between(1, left.min(20));
        let other = stuff.class(random, share, depth);
        left -= other.concepts();
        axioms.push(match random.percent(50) {
            true => Axiom { left: class, right: other },
            false => Axiom { left: other, right: class },
        });
    }
    axioms
}

/// As deep as may be, with one concept a level.
fn deepest(random: &mut Random, stuff: &Stuff) -> Class {
    let inner = Class::Name(*random.pick(&stuff.names));
    tower(MAX_DEPTH - 1, *random.pick(&stuff.roles), inner)
}

/// Catalogues at the limits, each as its text: names only, one intersection, the deepest classes,
/// the most bytes.
pub fn at_the_limits() -> Vec<(&'static str, Vec<u8>)> {
    let name = |k: usize| Class::Name(k as u16 % 60);
    let names: Vec<Axiom> = (0..MAX_CONCEPTS / 2)
        .map(|k| Axiom { left: name(2 * k), right: name(2 * k + 1) })
        .collect();
    // one name and, of 96 members, 191 concepts
    let wide = Axiom { left: name(0), right: Class::All((0..96).map(name).collect()) };
    let deep: Vec<Axiom> = (0..3)
        .map(|k| Axiom {
            left: tower(MAX_DEPTH - 1, k, name(0)),
            right: tower(MAX_DEPTH - 1, k + 1, name(1)),
        })
        .collect();
    let pairs = (0..MAX_DEPTH - 1).fold(name(0), |inner, k| Class::All(vec![name(k), inner]));
    let pairs = vec![
        Axiom { left: pairs.clone(), right: pairs.clone() },
        Axiom { left: pairs, right: name(0) },
    ];
    let mut longest = lines(&deep);
    longest.resize(MAX_TEXT, b' ');
    vec![
        ("96 pairs of names", lines(&names)),
        ("one intersection of 96", lines(&[wide])),
        ("32 deep by roles", lines(&deep)),
        ("32 deep by intersections", lines(&pairs)),
        ("8192 bytes", longest),
    ]
}
