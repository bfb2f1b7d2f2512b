//! Subjects: those that match a rule, nearly match it, or are anything.

use std::collections::BTreeMap;

use super::rng::Rng;
use super::rules::{name, Rule};
use super::term::Term;
use crate::limits::INDEX;

/// A subject that an accepted rule's left side matches: the left side under a
/// random valuation. It can pass a limit, mostly not.
pub fn matching_subject(rng: &mut Rng, rule: &Rule) -> Vec<u32> {
    let left = Term::of_words(&rule.left);
    let mut valuation = BTreeMap::new();
    let room = *rng.pick(&[1, 3, 8, 30, 120]);
    left.visit(0, &mut |term, _| {
        if let Term::Meta(name, arguments) = term {
            let count = arguments.len();
            valuation.entry((*name, count)).or_insert_with(|| value(rng, count as u32, room));
        }
    });
    instance(&left, 0, &valuation).words()
}

/// A term over so many parameters, 0 first, and free variables after them.
fn value(rng: &mut Rng, parameters: u32, room: usize) -> Term {
    let mut room = rng.between(1, room);
    random_term(rng, parameters, &mut room, 40)
}

/// The left side under a valuation. Its metavariables' arguments are variables,
/// so each value is renamed only: parameter i becomes argument i, other free
/// variables pass the abstractions above.
fn instance(term: &Term, above: u32, valuation: &BTreeMap<(u32, usize), Term>) -> Term {
    let all = |terms: &[Term]| terms.iter().map(|t| instance(t, above, valuation)).collect();
    match term {
        Term::Var(index) => Term::Var(*index),
        Term::Sym(name, terms) => Term::Sym(*name, all(terms)),
        Term::Abst(body) => Term::abst(instance(body, above + 1, valuation)),
        Term::Meta(name, terms) => {
            let count = terms.len() as u32;
            valuation[&(*name, terms.len())].change_variables(0, &mut |index, inside| {
                if index < inside {
                    return Term::Var(index);
                }
                match terms.get((index - inside) as usize) {
                    Some(Term::Var(argument)) => Term::Var(argument + inside),
                    _ => Term::Var((index - count + above).min(INDEX)),
                }
            })
        }
    }
}

/// A term without metavariables; variables below `bound` come often, others too.
pub fn random_term(rng: &mut Rng, bound: u32, room: &mut usize, depth: usize) -> Term {
    *room = room.saturating_sub(1);
    let goes_on = *room > 0 && depth > 0;
    match rng.below(9) {
        0..=3 if goes_on => {
            let count = (*rng.pick(&[1, 1, 2, 2, 3, 8])).min(*room);
            let arguments = (0..count).map(|_| random_term(rng, bound, room, depth - 1)).collect();
            Term::Sym(name(rng), arguments)
        }
        4..=5 if goes_on => Term::abst(random_term(rng, bound + 1, room, depth - 1)),
        6 => Term::leaf(name(rng)),
        _ => Term::Var(variable(rng, bound)),
    }
}

/// Mostly bound, else free: near, far, or at the highest index.
fn variable(rng: &mut Rng, bound: u32) -> u32 {
    match rng.below(40) {
        0 => INDEX - rng.below(70) as u32,
        1..=9 => bound + rng.below(4) as u32,
        _ => rng.below(bound.max(1) as usize) as u32,
    }
}

/// Any accepted subject, small.
pub fn random_subject(rng: &mut Rng) -> Vec<u32> {
    let mut room = rng.between(1, 60);
    random_term(rng, 0, &mut room, 50).words()
}

/// A subject with one change; some changes leave no accepted subject.
pub fn nearly(rng: &mut Rng, subject: &[u32]) -> Vec<u32> {
    let mut words = subject.to_vec();
    let place = rng.below(words.len());
    match rng.below(8) {
        0 => words[place] ^= 1 << rng.below(20),
        1 => words.truncate(place),
        2 => words.extend([rng.below(3) as u32, 0]),
        _ => change_node(rng, &mut words),
    }
    words
}

/// Changes one node of a good table so that it stays good.
fn change_node(rng: &mut Rng, words: &mut Vec<u32>) {
    let mut term = Term::of_words(words);
    let number = rng.below(term.nodes());
    let old = term.at_mut(number);
    *old = match (&*old, rng.below(5)) {
        (Term::Var(index), 0..=2) => Term::Var(index ^ 1),
        (Term::Sym(name, all), 0) => Term::Sym(name ^ 1, all.clone()),
        (Term::Sym(name, all), 1) if all.len() > 1 => {
            let mut all = all.clone();
            all.swap(0, 1);
            Term::Sym(*name, all)
        }
        (Term::Abst(body), 0) => (**body).clone(),
        (Term::Abst(body), 1) => Term::Sym(0, vec![(**body).clone()]),
        (_, 2) => Term::abst(old.clone()),
        (_, 3) => Term::Var(rng.below(4) as u32),
        (_, _) => Term::leaf(rng.below(4) as u32),
    };
    if rng.percent(5) {
        *term.at_mut(number) = Term::Meta(0, Vec::new());
    }
    *words = term.words();
}
