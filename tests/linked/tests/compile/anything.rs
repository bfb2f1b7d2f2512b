//! Rules of which nobody says beforehand what is wrong with them, if anything.

use linked::compile::Compile;
use second::limits::{DEPTH, METAVARIABLES, NODE_WORDS, SIDE_NODES};
use second::seed::{Rng, Rule, Term};

use crate::accepted::{name, small};
use crate::lent::words_of;
use crate::limits;
use crate::spoilt::{ABSTRACTION, METAVARIABLE, SYMBOL};

/// Nodes or words changed in rules that are close to the limits.
pub fn damaged(rng: &mut Rng) -> Vec<Compile> {
    let close = *rng.pick(&[
        |rng: &mut Rng| vec![small(rng)],
        |rng: &mut Rng| limits::metavariables(rng, METAVARIABLES),
        |rng: &mut Rng| limits::depth(rng, DEPTH),
        |rng: &mut Rng| limits::nodes(rng, SIDE_NODES),
    ]);
    let rules = close(rng);
    let damage = |rule: &Rule| {
        let words = words_of(rule);
        let mut rule = rule.clone();
        let side = if rng.percent(50) { &mut rule.left } else { &mut rule.right };
        damage(rng, side);
        // For what the code's length was, or nearly.
        let lent = *rng.pick(&[words - 1, words, words + 2, words + 200]);
        Compile::new(rng, &rule, lent)
    };
    rules.iter().map(damage).collect()
}

fn damage(rng: &mut Rng, side: &mut Vec<u32>) {
    if rng.percent(20) {
        let word = rng.below(side.len());
        side[word] ^= 1 << rng.below(20);
        return;
    }
    let mut term = Term::of_words(side);
    let node = term.at_mut(rng.below(side.len() / NODE_WORDS));
    *node = match rng.below(7) {
        0 => Term::Sym(name(rng), vec![node.clone()]),
        1 => Term::abst(node.clone()),
        2 => Term::Meta(name(rng), vec![node.clone()]),
        3 => Term::Meta(name(rng), Vec::new()),
        4 => Term::Var(rng.below(4) as u32),
        5 => Term::leaf(name(rng)),
        _ => node.arguments().first().unwrap_or(node).clone(),
    };
    *side = term.words();
}

/// Sides of a few nodes, each of any kind: many a rule that nobody would think of.
pub fn short(rng: &mut Rng) -> Vec<Compile> {
    let left = if rng.percent(90) { [SYMBOL, rng.between(1, 2) as u32] } else { node(rng) };
    let right = node(rng);
    let rule = Rule { left: completed(rng, left), right: completed(rng, right) };
    let lent = *rng.pick(&[0, 8, 16, 24, 100]);
    vec![Compile::new(rng, &rule, lent)]
}

/// Further nodes after a root, until there is a term or there are enough.
fn completed(rng: &mut Rng, root: [u32; NODE_WORDS]) -> Vec<u32> {
    const ENOUGH: usize = 9;
    let (mut words, mut owed) = (root.to_vec(), root[1]);
    while owed > 0 && words.len() < NODE_WORDS * ENOUGH {
        let [first, count] = node(rng);
        words.extend([first, count]);
        owed = owed + count - 1;
    }
    words
}

/// A node with few arguments, and one of few names.
fn node(rng: &mut Rng) -> [u32; NODE_WORDS] {
    let (count, name) = (*rng.pick(&[0, 0, 1, 1, 2]), rng.below(2) as u32);
    let first = match (count, rng.below(4)) {
        (0, 0..=1) => name,
        (1, 0..=1) => ABSTRACTION,
        (_, 2) => METAVARIABLE + name,
        _ => SYMBOL + name,
    };
    [first, count]
}
