//! Rules that are accepted, each kind with much of one thing.

use second::limits::{ARGUMENTS, DEPTH, INDEX, METAVARIABLES, SIDE_NODES};
use second::seed::{good_rule, Rng, Rule, Term};

/// A metavariable's name and count.
pub type Metavariable = (u32, usize);

/// What a rule is made of.
struct Shape {
    metavariables: Vec<Metavariable>,
    /// Occurrences on the left besides one of each metavariable.
    repeats: usize,
    /// The most abstractions that a group of occurrences begins with.
    abstractions: usize,
    /// Levels of the right side, most of them metavariables in arguments of one another.
    levels: usize,
}

/// Few nodes, so that there is room for more beside them.
pub fn small(rng: &mut Rng) -> Rule {
    const WORDS: usize = 100;
    loop {
        let rule = good_rule(rng);
        if rule.left.len().max(rule.right.len()) <= WORDS {
            return rule;
        }
    }
}

/// Metavariables that only their counts tell apart, each count there is.
pub fn same_name(rng: &mut Rng) -> Rule {
    made(rng, |rng| {
        let name = name(rng);
        let metavariables = (0..=ARGUMENTS).map(|count| (name, count)).collect();
        Shape { metavariables, repeats: 6, abstractions: 9, levels: 12 }
    })
}

/// As many metavariables as there may be, some of them repeated.
pub fn sixteen_metavariables(rng: &mut Rng) -> Rule {
    with_metavariables(rng, METAVARIABLES)
}

/// So many metavariables, some with the same name; accepted if that is not too many.
pub fn with_metavariables(rng: &mut Rng, count: usize) -> Rule {
    const COUNTS: u32 = 4;
    loop {
        let numbers = rng.distinct(count, 3 * count);
        let metavariables =
            numbers.into_iter().map(|n| (n / COUNTS, (n % COUNTS) as usize)).collect();
        let (repeats, levels) = (rng.below(8), rng.between(1, 30));
        let shape = Shape { metavariables, repeats, abstractions: 12, levels };
        if let Some(rule) = sides(rng, &shape) {
            return rule;
        }
    }
}

/// One to three metavariables at many places: other arguments, other abstractions above.
pub fn repeated(rng: &mut Rng) -> Rule {
    made(rng, |rng| {
        let repeats = rng.between(4, 16);
        Shape { metavariables: few(rng, 0, ARGUMENTS), repeats, abstractions: 14, levels: 6 }
    })
}

/// Metavariables under any number of abstractions, so that a CHECK lists up to 62 indices.
pub fn under_abstractions(rng: &mut Rng) -> Rule {
    made(rng, |rng| {
        let metavariables = few(rng, 0, ARGUMENTS);
        Shape { metavariables, repeats: rng.below(3), abstractions: DEPTH - 2, levels: 4 }
    })
}

/// Bodies in bodies, down to the depth that a side may have.
pub fn nested_bodies(rng: &mut Rng) -> Rule {
    made(rng, |rng| {
        // With more arguments, 64 levels would be too many nodes.
        let metavariables = few(rng, 1, 3);
        Shape { metavariables, repeats: 0, abstractions: 9, levels: rng.between(2, DEPTH) }
    })
}

/// A left side to itself: it has no free variable, and its metavariables stand on the left.
pub fn to_itself(rng: &mut Rng) -> Rule {
    let left = good_rule(rng).left;
    Rule { right: left.clone(), left }
}

/// Names at both ends; few, so that symbols, metavariables and variables share them.
pub fn name(rng: &mut Rng) -> u32 {
    *rng.pick(&[0, 1, 2, 3, INDEX - 1, INDEX])
}

/// One to three metavariables with so many arguments.
fn few(rng: &mut Rng, least: usize, most: usize) -> Vec<Metavariable> {
    let mut metavariables: Vec<Metavariable> =
        (0..rng.between(1, 3)).map(|_| (name(rng), rng.between(least, most))).collect();
    metavariables.sort_unstable();
    metavariables.dedup();
    metavariables
}

fn made(rng: &mut Rng, shape: fn(&mut Rng) -> Shape) -> Rule {
    loop {
        let shape = shape(rng);
        if let Some(rule) = sides(rng, &shape) {
            return rule;
        }
    }
}

/// A rule of this shape, if it came out within the limits.
fn sides(rng: &mut Rng, shape: &Shape) -> Option<Rule> {
    let left = left(rng, shape);
    let right = Right { metavariables: &shape.metavariables, rng }.term(0, shape.levels);
    let within = |side: &Term| side.nodes() <= SIDE_NODES && side.depth() <= DEPTH;
    (within(&left) && within(&right)).then(|| Rule::of(&left, &right))
}

/// One to three groups of occurrences.
fn left(rng: &mut Rng, shape: &Shape) -> Term {
    let mut all = shape.metavariables.clone();
    all.extend((0..shape.repeats).map(|_| *rng.pick(&shape.metavariables)));
    let order = rng.distinct(all.len(), all.len());
    let mut waiting: Vec<Metavariable> = order.into_iter().map(|n| all[n as usize]).collect();
    let mut groups = Vec::new();
    for share in (1..=rng.between(1, 3)).rev() {
        let group = waiting.split_off(waiting.len() - waiting.len() / share);
        let above = rng.between(0, shape.abstractions);
        groups.push(Term::under(above, occurrences(rng, group, above)));
    }
    Term::Sym(name(rng), groups)
}

/// All of these beside and below each other, with further abstractions between them.
fn occurrences(rng: &mut Rng, mut waiting: Vec<Metavariable>, above: usize) -> Term {
    let Some((name_of, count)) = waiting.pop() else { return leaf(rng, above) };
    if above < count || rng.percent(20) {
        waiting.push((name_of, count));
        return Term::abst(occurrences(rng, waiting, above + 1));
    }
    let occurrence = applied(rng, (name_of, count), above);
    let rest = occurrences(rng, waiting, above);
    let arguments = if rng.percent(50) { vec![occurrence, rest] } else { vec![rest, occurrence] };
    Term::Sym(name(rng), arguments)
}

/// A metavariable with distinct variables.
pub fn applied(rng: &mut Rng, (name, count): Metavariable, above: usize) -> Term {
    Term::Meta(name, rng.distinct(count, above).into_iter().map(Term::Var).collect())
}

/// A bound variable or a symbol without arguments.
pub fn leaf(rng: &mut Rng, above: usize) -> Term {
    if above > 0 && rng.percent(60) {
        return Term::Var(rng.below(above) as u32);
    }
    Term::leaf(name(rng))
}

/// A right side in the making.
struct Right<'a> {
    metavariables: &'a [Metavariable],
    rng: &'a mut Rng,
}

impl Right<'_> {
    /// A term of at most so many levels, reached in one of a node's arguments.
    fn term(&mut self, above: usize, levels: usize) -> Term {
        if levels <= 1 {
            return self.leaf(above);
        }
        match self.rng.below(8) {
            0 => Term::abst(self.term(above + 1, levels - 1)),
            1 => {
                let count = self.rng.between(1, 3);
                Term::Sym(name(self.rng), self.arguments(count, above, levels - 1))
            }
            _ => {
                let (name, count) = *self.rng.pick(self.metavariables);
                Term::Meta(name, self.arguments(count, above, levels - 1))
            }
        }
    }

    fn arguments(&mut self, count: usize, above: usize, levels: usize) -> Vec<Term> {
        let deepest = self.rng.below(count);
        let levels_of = |place| if place == deepest { levels } else { 1 };
        (0..count).map(|place| self.term(above, levels_of(place))).collect()
    }

    fn leaf(&mut self, above: usize) -> Term {
        let (name, count) = *self.rng.pick(self.metavariables);
        if count == 0 {
            return Term::Meta(name, Vec::new());
        }
        leaf(self.rng, above)
    }
}
