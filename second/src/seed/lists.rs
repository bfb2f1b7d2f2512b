//! Lists of rules that feed each other, and plans full of their left sides.

use super::rng::Rng;
use super::rules::Rule;
use super::term::Term;
use crate::limits::{DEPTH, SUBJECT_NODES};

/// The argument count of each symbol here, so that rules and plans meet.
const COUNTS: [usize; 9] = [0, 0, 1, 1, 2, 2, 3, 1, 2];
/// Its argument is mostly an abstraction.
const BINDER: u32 = 7;
/// The symbols without arguments.
const LEAVES: usize = 2;

/// Up to `most` rules over few symbols: what one makes another one matches,
/// more often than not.
pub fn feeding_rules(rng: &mut Rng, most: usize) -> Vec<Rule> {
    (0..rng.between(1, most)).map(|_| feeding_rule(rng)).collect()
}

fn feeding_rule(rng: &mut Rng) -> Rule {
    let room = *rng.pick(&[2, 4, 7]);
    let mut making = Making { rng, metavariables: Vec::new(), room };
    let left = making.left_symbol(0);
    making.room = *making.rng.pick(&[1, 2, 4, 7]);
    let right = making.right(0);
    Rule::of(&left, &right)
}

/// A plan over the same symbols of about so many nodes, with free variables.
pub fn feeding_plan(rng: &mut Rng, nodes: usize) -> Term {
    let mut room = nodes;
    plan(rng, 0, &mut room, 20)
}

/// A plan with these terms in the place of some of its nodes; it stays within
/// the limits, if need be without some of the terms.
pub fn planted(rng: &mut Rng, plan: &Term, terms: &[Term]) -> Term {
    let mut whole = plan.clone();
    for term in terms {
        let before = whole.clone();
        let node = rng.below(whole.nodes());
        *whole.at_mut(node) = term.clone();
        if whole.nodes() > SUBJECT_NODES || whole.depth() > DEPTH {
            whole = before;
        }
    }
    whole
}

struct Making<'r> {
    rng: &'r mut Rng,
    /// Name and count, each name once.
    metavariables: Vec<(u32, usize)>,
    room: usize,
}

impl Making<'_> {
    fn take(&mut self) -> bool {
        self.room = self.room.saturating_sub(1);
        self.room > 0
    }

    fn left_symbol(&mut self, above: u32) -> Term {
        let name = self.rng.between(LEAVES, COUNTS.len() - 1) as u32;
        if name == BINDER && self.rng.percent(80) {
            return Term::Sym(name, vec![Term::abst(self.left(above + 1))]);
        }
        Term::Sym(name, (0..COUNTS[name as usize]).map(|_| self.left(above)).collect())
    }

    fn left(&mut self, above: u32) -> Term {
        let goes_on = self.take();
        match self.rng.below(10) {
            0..=3 if goes_on => self.left_symbol(above),
            4 if goes_on => Term::abst(self.left(above + 1)),
            5 => Term::leaf(self.rng.below(LEAVES) as u32),
            6 if above > 0 => Term::Var(self.rng.below(above as usize) as u32),
            _ => self.left_metavariable(above),
        }
    }

    fn left_metavariable(&mut self, above: u32) -> Term {
        let fitting = |metavariable: &&(u32, usize)| metavariable.1 <= above as usize;
        let old: Vec<_> = self.metavariables.iter().filter(fitting).copied().collect();
        let (name, count) = if !old.is_empty() && self.rng.percent(15) {
            *self.rng.pick(&old)
        } else {
            let count = self.rng.between(0, above.min(2) as usize);
            let new = (self.metavariables.len() as u32, count);
            self.metavariables.push(new);
            new
        };
        let arguments = self.rng.distinct(count, above as usize);
        Term::Meta(name, arguments.into_iter().map(Term::Var).collect())
    }

    fn right(&mut self, above: u32) -> Term {
        let goes_on = self.take();
        match self.rng.below(10) {
            0..=2 if goes_on => {
                let name = self.rng.between(LEAVES, COUNTS.len() - 1) as u32;
                if name == BINDER && self.rng.percent(80) {
                    return Term::Sym(name, vec![Term::abst(self.right(above + 1))]);
                }
                let count = COUNTS[name as usize];
                Term::Sym(name, (0..count).map(|_| self.right(above)).collect())
            }
            3 if goes_on => Term::abst(self.right(above + 1)),
            4 if above > 0 => Term::Var(self.rng.below(above as usize) as u32),
            5..=9 => self.right_metavariable(above, goes_on),
            _ => Term::leaf(self.rng.below(LEAVES) as u32),
        }
    }

    /// One that the left side has, without arguments where the term should end.
    fn right_metavariable(&mut self, above: u32, goes_on: bool) -> Term {
        let fitting = |metavariable: &&(u32, usize)| goes_on || metavariable.1 == 0;
        let old: Vec<_> = self.metavariables.iter().filter(fitting).copied().collect();
        if old.is_empty() {
            return Term::leaf(self.rng.below(LEAVES) as u32);
        }
        let (name, count) = *self.rng.pick(&old);
        Term::Meta(name, (0..count).map(|_| self.right(above)).collect())
    }
}

fn plan(rng: &mut Rng, above: u32, room: &mut usize, levels: usize) -> Term {
    *room = room.saturating_sub(1);
    if *room == 0 || levels == 0 {
        return match rng.below(4) {
            0 => Term::Var(rng.below(above as usize + 3) as u32),
            _ => Term::leaf(rng.below(LEAVES) as u32),
        };
    }
    match rng.below(12) {
        0 => Term::abst(plan(rng, above + 1, room, levels - 1)),
        1 => Term::Var(rng.below(above as usize + 3) as u32),
        2 => Term::leaf(rng.below(LEAVES) as u32),
        _ => {
            let name = rng.between(LEAVES, COUNTS.len() - 1) as u32;
            if name == BINDER {
                return Term::Sym(name, vec![Term::abst(plan(rng, above + 1, room, levels - 1))]);
            }
            let count = COUNTS[name as usize];
            Term::Sym(name, (0..count).map(|_| plan(rng, above, room, levels - 1)).collect())
        }
    }
}
