//! Finite interpretations (01: stocks) and membership, straight from 01's "Below".

use std::collections::BTreeSet;

use crate::random::Random;
use crate::tables::{Concept, Tables};

/// Element x bears the names `names[x]`, and `links[x]` are its (role, element) links.
#[derive(Clone, Debug, PartialEq, Eq)]
pub struct Interpretation {
    pub names: Vec<BTreeSet<u16>>,
    pub links: Vec<BTreeSet<(u16, usize)>>,
}

impl Interpretation {
    pub fn empty(size: usize) -> Self {
        Interpretation { names: vec![BTreeSet::new(); size], links: vec![BTreeSet::new(); size] }
    }

    pub fn size(&self) -> usize {
        self.names.len()
    }
}

/// Membership by the structure of the concept. Its time is exponential in the depth, so it is
/// for tiny tables only.
pub fn member(
    interpretation: &Interpretation,
    tables: &Tables,
    chosen: &[Vec<usize>],
    element: usize,
    id: usize,
) -> bool {
    let belongs = |element, id| member(interpretation, tables, chosen, element, id);
    match tables.concept(id) {
        Concept::Top => true,
        Concept::Name(name) => interpretation.names[element].contains(&name),
        Concept::Existential(role, inner) => interpretation.links[element]
            .iter()
            .any(|&(r, target)| r == role && belongs(target, inner)),
        Concept::Conjunction(first, second) => belongs(element, first) && belongs(element, second),
        Concept::Variable(variable) => chosen[variable].iter().all(|&atom| belongs(element, atom)),
    }
}

/// An element of the left that is not of the right.
pub fn counterexample(
    interpretation: &Interpretation,
    tables: &Tables,
    chosen: &[Vec<usize>],
    left: usize,
    right: usize,
) -> Option<usize> {
    let belongs = |element, id| member(interpretation, tables, chosen, element, id);
    (0..interpretation.size()).find(|&x| belongs(x, left) && !belongs(x, right))
}

/// Both tables: the inclusions, and each role pair's narrow links are links of the wide role.
pub fn obeys(interpretation: &Interpretation, tables: &Tables) -> bool {
    if missing_link(interpretation, tables).is_some() {
        return false;
    }
    let inclusions = tables.inclusion_pairs();
    // inclusions hold no variable, so nothing is chosen
    let broken = |&(left, right): &(usize, usize)| {
        counterexample(interpretation, tables, &[], left, right).is_some()
    };
    !inclusions.iter().any(broken)
}

/// An element and a link that it lacks: the same to the same under a narrow role is there.
pub fn missing_link(
    interpretation: &Interpretation,
    tables: &Tables,
) -> Option<(usize, (u16, usize))> {
    let lacks = |links: &BTreeSet<(u16, usize)>| {
        let of_pair = |(narrow, wide): (u16, u16)| {
            let mut wanted =
                links.iter().filter(|link| link.0 == narrow).map(|link| (wide, link.1));
            wanted.find(|link| !links.contains(link))
        };
        tables.role_pairs().find_map(of_pair)
    };
    let mut all = interpretation.links.iter().enumerate();
    all.find_map(|(x, links)| lacks(links).map(|link| (x, link)))
}

/// Names and roles that the tables mention, damaged or not, and one of each that they do not.
pub fn signature(tables: &Tables) -> (Vec<u16>, Vec<u16>) {
    let mut names = BTreeSet::from([1000]);
    let mut roles = BTreeSet::from([100]);
    roles.extend(&tables.roles);
    for id in 0..tables.concept_count() {
        match tables.row(id) {
            [1, name, _] => {
                names.insert(name);
            }
            [2, role, _] => {
                roles.insert(role);
            }
            _ => {}
        }
    }
    (names.into_iter().collect(), roles.into_iter().collect())
}

/// A random interpretation that obeys inclusions and role pairs: what is missing is added at random until
/// nothing is, which ends because nothing is taken away.
pub fn random_model(tables: &Tables, size: usize, random: &mut Random) -> Interpretation {
    let (names, roles) = signature(tables);
    let density = random.below(40);
    let mut model = Interpretation::empty(size);
    for x in 0..size {
        model.names[x].extend(names.iter().filter(|_| random.percent(density)));
        for &role in &roles {
            let targets = (0..size).filter(|_| random.percent(density));
            model.links[x].extend(targets.map(|y| (role, y)));
        }
    }
    while !obeys(&model, tables) {
        while let Some((x, link)) = missing_link(&model, tables) {
            model.links[x].insert(link);
        }
        for (left, right) in tables.inclusion_pairs() {
            if let Some(x) = counterexample(&model, tables, &[], left, right) {
                force(&mut model, tables, x, right, random);
            }
        }
    }
    model
}

/// Makes `element` a member of the concept without variables `id`.
fn force(
    model: &mut Interpretation,
    tables: &Tables,
    element: usize,
    id: usize,
    random: &mut Random,
) {
    if member(model, tables, &[], element, id) {
        return;
    }
    match tables.concept(id) {
        Concept::Top | Concept::Variable(_) => {}
        Concept::Name(name) => {
            model.names[element].insert(name);
        }
        Concept::Existential(role, inner) => {
            let target = random.below(model.size());
            model.links[element].insert((role, target));
            force(model, tables, target, inner, random);
        }
        Concept::Conjunction(first, second) => {
            force(model, tables, element, first, random);
            force(model, tables, element, second, random);
        }
    }
}

/// Every interpretation of `size` elements over the given names and roles, one for each pattern
/// of bits.
pub fn all_interpretations(
    size: usize,
    names: Vec<u16>,
    roles: Vec<u16>,
) -> impl Iterator<Item = Interpretation> {
    let bits = size * names.len() + size * size * roles.len();
    assert!(bits < 24, "too many interpretations");
    (0..1u32 << bits).map(move |pattern| {
        let mut rest = pattern;
        let mut next = || {
            let bit = rest & 1 == 1;
            rest >>= 1;
            bit
        };
        let mut made = Interpretation::empty(size);
        for x in 0..size {
            made.names[x].extend(names.iter().filter(|_| next()));
            for &role in &roles {
                made.links[x].extend((0..size).filter(|_| next()).map(|y| (role, y)));
            }
        }
        made
    })
}
