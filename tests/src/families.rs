//! Tables of a given size for timing and for comparisons at the limits: n concepts, n / 2
//! inclusions, no variables. At most n / 3 ids are atoms, so that 192 concepts stay within 64.

use crate::generate::spread_roles;
use crate::random::Random;
use crate::tables::Tables;

#[derive(Clone, Copy, Debug, PartialEq, Eq)]
pub enum Family {
    Random,
    Acyclic,
    LongChain,
    Cyclic,
    Diamonds,
    Equivalent,
    Towers,
}

/// All but the towers, which only the subsumption table is timed on.
pub const FAMILIES: [Family; 6] = [
    Family::Random,
    Family::Acyclic,
    Family::LongChain,
    Family::Cyclic,
    Family::Diamonds,
    Family::Equivalent,
];

impl Family {
    pub fn label(self) -> &'static str {
        match self {
            Family::Random => "random",
            Family::Acyclic => "acyclic",
            Family::LongChain => "long chain",
            Family::Cyclic => "cyclic",
            Family::Diamonds => "diamonds",
            Family::Equivalent => "equivalent",
            Family::Towers => "towers",
        }
    }

    /// `n` is a multiple of 24, up to 192.
    pub fn tables(self, n: usize) -> Tables {
        assert!(n % 24 == 0 && n > 0, "families come in multiples of 24");
        let mut builder = Builder::new(n);
        match self {
            Family::Random => random(&mut builder),
            Family::Acyclic => acyclic(&mut builder),
            Family::LongChain => long_chain(&mut builder),
            Family::Cyclic => cyclic(&mut builder),
            Family::Diamonds => diamonds(&mut builder),
            Family::Equivalent => equivalent(&mut builder),
            Family::Towers => towers(&mut builder),
        }
        builder.finish()
    }

    /// The same with 32 role pairs and the same answers: what the pairs cost.
    pub fn tables_with_role_pairs(self, n: usize) -> Tables {
        spread_roles(&mut Random::new(n as u64), &self.tables(n))
    }
}

struct Builder {
    n: usize,
    rows: Vec<[u16; 3]>,
    inclusions: Vec<[u16; 2]>,
    random: Random,
}

impl Builder {
    fn new(n: usize) -> Self {
        Builder { n, rows: Vec::new(), inclusions: Vec::new(), random: Random::new(n as u64) }
    }

    fn add(&mut self, row: [u16; 3]) -> u16 {
        self.rows.push(row);
        (self.rows.len() - 1) as u16
    }

    fn names(&mut self, count: usize) -> Vec<u16> {
        (0..count).map(|k| self.add([1, k as u16, 0])).collect()
    }

    fn existential(&mut self, role: usize, inner: u16) -> u16 {
        self.add([2, role as u16, inner])
    }

    fn conjunction(&mut self, first: u16, second: u16) -> u16 {
        self.add([3, first, second])
    }

    fn inclusion(&mut self, left: u16, right: u16) {
        self.inclusions.push([left, right]);
    }

    fn wants_concepts(&self) -> bool {
        self.rows.len() < self.n
    }

    fn wants_inclusions(&self) -> bool {
        self.inclusions.len() < self.n / 2
    }

    fn any(&mut self) -> u16 {
        let count = self.rows.len();
        self.random.below(count) as u16
    }

    /// Fills up with conjunctions and existentials that stand in no inclusion.
    fn fill_up(&mut self, roles: usize) {
        while self.wants_concepts() {
            let (a, b) = (self.any(), self.any());
            if self.rows.len() % 2 == 0 {
                self.existential(usize::from(b) % roles, a);
            } else {
                self.conjunction(a, b);
            }
        }
    }

    fn finish(self) -> Tables {
        assert_eq!(self.rows.len(), self.n);
        assert_eq!(self.inclusions.len(), self.n / 2);
        Tables::new(&self.rows, &self.inclusions, &[], 0)
    }
}

/// Inclusions between random concepts over n / 6 names and n / 6 existentials.
fn random(builder: &mut Builder) {
    builder.names(builder.n / 6);
    for _ in 0..builder.n / 6 {
        let (inner, first, second) = (builder.any(), builder.any(), builder.any());
        let role = builder.random.below(3);
        builder.existential(role, inner);
        builder.conjunction(first, second);
        let (first, second) = (builder.any(), builder.any());
        builder.conjunction(first, second);
    }
    while builder.wants_inclusions() {
        let (left, right) = (builder.any(), builder.any());
        builder.inclusion(left, right);
    }
    builder.fill_up(3);
}

/// Each name is below concepts built from later names only.
fn acyclic(builder: &mut Builder) {
    let names = builder.names(builder.n / 6);
    let count = names.len();
    let existentials: Vec<u16> = (0..count).map(|k| builder.existential(k % 3, names[k])).collect();
    let mut k = 0;
    while builder.wants_inclusions() {
        let left = k % (count - 1);
        let later = |random: &mut Random| random.between(left + 1, count - 1);
        let (a, b) = (later(&mut builder.random), later(&mut builder.random));
        let right = if k < count {
            existentials[a]
        } else {
            builder.conjunction(names[a], existentials[b])
        };
        builder.inclusion(names[left], right);
        k += 1;
    }
    builder.fill_up(3);
}

/// A chain of inclusions that runs from the highest name down, and two towers of existentials on
/// its ends: each storey is known only after the one below.
fn long_chain(builder: &mut Builder) {
    let names = builder.names(builder.n / 4);
    let last = names.len() - 1;
    for k in 0..last {
        let step = builder.conjunction(names[k], names[k]);
        builder.inclusion(names[k + 1], step);
        builder.inclusion(step, names[k]);
    }
    // two more make up the number, and no short cut
    while builder.wants_inclusions() {
        builder.inclusion(names[1], names[0]);
    }
    let (mut low, mut high) = (names[last], names[0]);
    while builder.wants_concepts() {
        low = builder.existential(0, low);
        if builder.wants_concepts() {
            high = builder.existential(0, high);
        }
    }
}

/// Rings through existentials, as 01's card K, and through conjunctions.
fn cyclic(builder: &mut Builder) {
    let names = builder.names(builder.n / 6);
    let count = names.len();
    let existentials: Vec<u16> = (0..count).map(|k| builder.existential(0, names[k])).collect();
    for k in 0..count {
        builder.inclusion(names[k], existentials[(k + 1) % count]);
        builder.inclusion(existentials[k], names[(k + 3) % count]);
        let step = builder.conjunction(names[k], names[(k + 1) % count]);
        builder.inclusion(step, names[(k + 2) % count]);
    }
    builder.fill_up(1);
}

/// Stacked diamonds: a below b and c, and "b and c" below the next a; the same again inside
/// existentials, which stand in no inclusion.
fn diamonds(builder: &mut Builder) {
    let count = builder.n / 9;
    let names = builder.names(3 * count);
    let at = |k: usize, corner: usize| names[3 * (k % count) + corner];
    for k in 0..count {
        builder.inclusion(at(k, 0), at(k, 1));
        builder.inclusion(at(k, 0), at(k, 2));
        if k + 1 < count {
            let bottom = builder.conjunction(at(k, 1), at(k, 2));
            builder.inclusion(bottom, at(k + 1, 0));
        }
    }
    let mut k = 0;
    while builder.wants_inclusions() {
        let skewed = builder.conjunction(at(k, 1), at(k + 1, 2));
        builder.inclusion(skewed, at(count - 1, 1));
        k += 1;
    }
    let mut k = 0;
    while builder.wants_concepts() {
        builder.existential(0, names[k % names.len()]);
        k += 1;
    }
}

/// One ring of inclusions through top, names, existentials and conjunctions makes all equivalent.
fn equivalent(builder: &mut Builder) {
    let top = builder.add([0, 0, 0]);
    let names = builder.names(builder.n / 6);
    let mut ring = vec![top];
    ring.extend(&names);
    for k in 1..builder.n / 6 {
        let inner = builder.any();
        ring.push(builder.existential(0, inner));
        ring.push(builder.conjunction(names[k], names[k - 1]));
    }
    ring.push(builder.conjunction(top, names[0]));
    for k in (0..ring.len()).rev() {
        builder.inclusion(ring[(k + 1) % ring.len()], ring[k]);
    }
    builder.fill_up(1);
}

/// Three towers on names that are below one another: two of nested existentials, sixty of them for
/// 192 concepts, and one of existentials and conjunctions in turn. Each storey is known only after
/// the one below it.
fn towers(builder: &mut Builder) {
    let names = builder.names(builder.n / 24 + 2);
    let last = names.len() - 1;
    for k in 0..last {
        builder.inclusion(names[k + 1], names[k]);
    }
    while builder.wants_inclusions() {
        let left = builder.random.between(1, last);
        let right = builder.random.below(left);
        builder.inclusion(names[left], names[right]);
    }
    let storeys = (builder.n - names.len()) / 3;
    let [mut low, mut middle, mut mixed] = [names[0], names[last / 2], names[last]];
    for storey in 0..storeys {
        low = builder.existential(0, low);
        middle = builder.existential(0, middle);
        mixed = match storey % 2 {
            0 => builder.existential(0, mixed),
            _ => builder.conjunction(names[last], mixed),
        };
    }
    builder.fill_up(1);
}
