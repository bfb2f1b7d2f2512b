//! Rules: good ones, broken ones, and those at both sides of each limit.

use super::rng::Rng;
use super::term::Term;
use crate::limits::{ARGUMENTS, DEPTH, INDEX, METAVARIABLES, NODE_WORDS, SIDE_NODES};
use crate::tables::{Node, ABSTRACTION, FIRST_SYMBOL};

/// The two sides' tables.
#[derive(Clone, Debug, PartialEq, Eq)]
pub struct Rule {
    pub left: Vec<u32>,
    pub right: Vec<u32>,
}

impl Rule {
    pub fn of(left: &Term, right: &Term) -> Rule {
        Rule { left: left.words(), right: right.words() }
    }
}

/// A metavariable of the rule that is being made.
type Metavariable = (u32, usize);

struct Making<'r> {
    rng: &'r mut Rng,
    metavariables: Vec<Metavariable>,
    /// How many nodes may still be made.
    room: usize,
}

/// A good rule of moderate size, often with nested abstractions, repeated
/// metavariables and metavariables in arguments on the right.
pub fn good_rule(rng: &mut Rng) -> Rule {
    loop {
        let (left, right) = sides(rng);
        // The room is a wish only.
        if left.nodes().max(right.nodes()) <= SIDE_NODES && left.depth().max(right.depth()) <= DEPTH
        {
            return Rule::of(&left, &right);
        }
    }
}

fn sides(rng: &mut Rng) -> (Term, Term) {
    let room = *rng.pick(&[6, 12, 25, 60, 200]);
    let mut making = Making { rng, metavariables: Vec::new(), room };
    let count = making.rng.between(1, 3);
    let left = Term::Sym(name(making.rng), (0..count).map(|_| making.left(0, 2)).collect());
    making.room = room;
    let right = making.right(0, 1);
    (left, right)
}

/// Few names, so that they meet; now and then the highest or any.
pub(super) fn name(rng: &mut Rng) -> u32 {
    match rng.below(20) {
        0 => INDEX,
        1 => rng.below(INDEX as usize + 1) as u32,
        _ => rng.below(6) as u32,
    }
}

/// Most symbols have few arguments.
fn arguments(rng: &mut Rng) -> usize {
    *rng.pick(&[0, 0, 1, 1, 1, 2, 2, 2, 3, 4, 8])
}

impl Making<'_> {
    /// Takes one node's room; false if the term should end here.
    fn take(&mut self, depth: usize) -> bool {
        self.room = self.room.saturating_sub(1);
        self.room > 0 && depth < DEPTH - 3
    }

    fn left(&mut self, above: u32, depth: usize) -> Term {
        let goes_on = self.take(depth);
        match self.rng.below(10) {
            0..=2 if goes_on => {
                let count = arguments(self.rng).min(self.room);
                Term::Sym(name(self.rng), (0..count).map(|_| self.left(above, depth + 1)).collect())
            }
            3..=5 if goes_on => Term::abst(self.left(above + 1, depth + 1)),
            6 if above > 0 => Term::Var(self.rng.below(above as usize) as u32),
            7 => Term::leaf(name(self.rng)),
            _ => self.left_metavariable(above),
        }
    }

    /// An old metavariable where its count allows, or a new one.
    fn left_metavariable(&mut self, above: u32) -> Term {
        let most = (above as usize).min(ARGUMENTS);
        let fitting: Vec<Metavariable> =
            self.metavariables.iter().copied().filter(|&(_, count)| count <= most).collect();
        let full = self.metavariables.len() == METAVARIABLES;
        if !fitting.is_empty() && (full || self.rng.percent(40)) {
            let (name, count) = *self.rng.pick(&fitting);
            return self.applied(name, count, above);
        }
        if full {
            return Term::leaf(name(self.rng));
        }
        let count = self.rng.between(0, most);
        let metavariable = (name(self.rng), count);
        if !self.metavariables.contains(&metavariable) {
            self.metavariables.push(metavariable);
        }
        self.applied(metavariable.0, count, above)
    }

    fn applied(&mut self, name: u32, count: usize, above: u32) -> Term {
        let indices = self.rng.distinct(count, above as usize);
        Term::Meta(name, indices.into_iter().map(Term::Var).collect())
    }

    fn right(&mut self, above: u32, depth: usize) -> Term {
        let goes_on = self.take(depth);
        match self.rng.below(10) {
            0..=1 if goes_on => {
                let count = arguments(self.rng).min(self.room);
                Term::Sym(
                    name(self.rng),
                    (0..count).map(|_| self.right(above, depth + 1)).collect(),
                )
            }
            2..=3 if goes_on => Term::abst(self.right(above + 1, depth + 1)),
            4..=8 if goes_on && !self.metavariables.is_empty() => {
                let (name, count) = *self.rng.pick(&self.metavariables);
                Term::Meta(name, (0..count).map(|_| self.right(above, depth + 1)).collect())
            }
            _ if above > 0 && self.rng.percent(60) => {
                Term::Var(self.rng.below(above as usize) as u32)
            }
            _ => self.right_leaf(),
        }
    }

    fn right_leaf(&mut self) -> Term {
        let nullary: Vec<u32> =
            self.metavariables.iter().filter(|m| m.1 == 0).map(|m| m.0).collect();
        if nullary.is_empty() || self.rng.percent(40) {
            return Term::leaf(name(self.rng));
        }
        Term::Meta(*self.rng.pick(&nullary), Vec::new())
    }
}

/// The refusals that `break_rule` aims at; 10 is a matter of the code table.
pub const BREAKS: [u32; 8] = [1, 2, 3, 5, 6, 7, 8, 9];

/// Breaks a rule so that this refusal is due, unless an earlier one is then.
/// Breaking twice, in any order, tests the order of the refusals.
pub fn break_rule(rng: &mut Rng, rule: &Rule, refusal: u32) -> Rule {
    let mut broken = rule.clone();
    let side = if rng.percent(50) { &mut broken.left } else { &mut broken.right };
    match refusal {
        1 => not_good(rng, side),
        2 => too_many_words(rng, side),
        3 => too_deep(rng, side),
        5 => {
            let arguments = broken.left.split_off(2.min(broken.left.len()));
            broken.left = Term::abst(Term::leaf(0)).words();
            if rng.percent(50) {
                broken.left = Term::Meta(0, Vec::new()).words();
            } else if !arguments.is_empty() && rng.percent(50) {
                broken.left = Term::Var(0).words();
            }
        }
        6 => wrap(side, Term::under(rng.below(3), Term::Var(rng.between(2, 5) as u32))),
        7 => wrap(&mut broken.left, bad_arguments(rng)),
        8 => wrap(&mut broken.right, Term::Meta(60_000, vec![Term::leaf(1); rng.below(3)])),
        _ => many_metavariables(rng, &mut broken),
    }
    broken
}

/// Puts a term beside a side's term, as the second argument of a new root.
fn wrap(side: &mut Vec<u32>, beside: Term) {
    let root = Node::symbol(9, 2);
    let mut words = vec![root.first, root.count];
    words.append(side);
    words.extend(beside.words());
    *side = words;
}

fn not_good(rng: &mut Rng, side: &mut Vec<u32>) {
    let place = rng.below(side.len().max(1));
    match rng.below(6) {
        0 => side.clear(),
        1 => side.truncate(place),
        2 => side.extend(Term::leaf(3).words()),
        3 => side.push(0),
        4 if !side.is_empty() => side[place] = rng.bits() as u32,
        // A kind that there is not.
        _ => side.extend([ABSTRACTION + FIRST_SYMBOL, 0]),
    }
}

fn too_many_words(rng: &mut Rng, side: &mut Vec<u32>) {
    let most = NODE_WORDS * SIDE_NODES;
    if rng.percent(50) {
        let nodes = rng.between(SIDE_NODES + 1, SIDE_NODES + 9);
        *side = Term::of_nodes(4, nodes).words();
    } else {
        let words = rng.between(most + 1, most + 7);
        side.resize(words, rng.bits() as u32);
    }
}

fn too_deep(rng: &mut Rng, side: &mut Vec<u32>) {
    let levels = rng.between(DEPTH, DEPTH + 3);
    let chain = if rng.percent(50) {
        Term::chain(2, levels, Term::leaf(1))
    } else {
        Term::Sym(2, vec![Term::under(levels - 1, Term::Var(0)), Term::leaf(0)])
    };
    wrap(side, chain);
}

/// A metavariable whose arguments are not distinct variables.
fn bad_arguments(rng: &mut Rng) -> Term {
    let variable = Term::Var(rng.below(2) as u32);
    let other = match rng.below(5) {
        0 => Term::leaf(1),
        1 => Term::Meta(0, Vec::new()),
        2 => Term::abst(Term::Var(1)),
        3 => Term::Sym(1, vec![variable.clone()]),
        _ => variable.clone(),
    };
    Term::under(2, Term::Meta(rng.below(3) as u32, vec![variable, other]))
}

/// Seventeen or more metavariables on the left; some stand on the right too.
fn many_metavariables(rng: &mut Rng, rule: &mut Rule) {
    let count = rng.between(METAVARIABLES + 1, METAVARIABLES + 9) as u32;
    let mut left = Term::leaf(0);
    for number in 0..count {
        left = Term::Sym(1, vec![Term::Meta(500 + number, Vec::new()), left]);
    }
    wrap(&mut rule.left, left);
    if rng.percent(50) {
        let last = rng.below(count as usize) as u32;
        wrap(&mut rule.right, Term::Meta(500 + last, Vec::new()));
    }
}

/// How many kinds `edge_rule` knows.
pub const EDGE_RULES: usize = 12;

/// A rule at a limit: kind 0 to `EDGE_RULES` - 1; with `over` one past it.
pub fn edge_rule(kind: usize, over: bool) -> Rule {
    let one = usize::from(over);
    let z = |count: usize| Term::Meta(7, (0..count as u32).map(Term::Var).collect());
    let c = Term::leaf(3);
    let f = |argument: Term| Term::Sym(5, vec![argument]);
    match kind {
        0 => Rule::of(&Term::of_nodes(5, SIDE_NODES + one), &c),
        1 => Rule::of(&c, &Term::of_nodes(5, SIDE_NODES + one)),
        2 => Rule::of(&Term::chain(5, DEPTH - 1 + one, c.clone()), &c),
        3 => Rule::of(&c, &Term::chain(5, DEPTH - 1 + one, c.clone())),
        4 => Rule::of(&distinct(METAVARIABLES + one), &c),
        5 => Rule::of(&distinct(METAVARIABLES + one), &distinct(METAVARIABLES + one)),
        // Nine arguments are no node: the table is not good.
        6 => Rule::of(&f(Term::under(9, z(ARGUMENTS + one))), &c),
        // b of 62 is the most that the depth allows; 63 is too deep.
        7 => Rule::of(&f(Term::under(62 + one, z(0))), &Term::abst(z(0))),
        8 => Rule::of(&f(Term::under(61 + one, z(3))), &Term::Meta(7, vec![c.clone(); 3])),
        9 => Rule::of(&f(Term::under(62, Term::Var(61 + one as u32))), &c),
        10 => Rule::of(&f(Term::under(2, z(2))), &nested(7, DEPTH - 1 + one)),
        // A right metavariable with another count is not the left one.
        _ => Rule::of(&f(Term::under(2, z(2))), &Term::Meta(7, vec![c.clone(); 2 + one])),
    }
}

/// F of so many distinct metavariables, as a comb.
fn distinct(count: usize) -> Term {
    (0..count as u32).fold(Term::leaf(1), |term, number| {
        Term::Sym(1, vec![Term::Meta(number, Vec::new()), term])
    })
}

/// Binary metavariables in the first argument of one another, so many levels.
fn nested(name: u32, levels: usize) -> Term {
    (0..levels).fold(Term::leaf(2), |term, _| Term::Meta(name, vec![term, Term::leaf(1)]))
}
