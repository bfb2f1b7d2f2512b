//! Rules at a limit and one step past it: each function takes what is counted, and gives a rule for
//! each place where the limit holds.

use second::limits::{ARGUMENTS, BINDERS, DEPTH, SIDE_NODES};
use second::seed::{Rng, Rule, Term};

use crate::accepted::{leaf, name, small, with_metavariables};

/// A metavariable with two arguments and one with none, for rules that are made by hand.
const PAIR: u32 = 7;
const SINGLE: u32 = 8;

/// Rules with the most of one thing, the longest code among them.
pub fn large(_: &mut Rng) -> Vec<Rule> {
    use second::seed::large::*;
    vec![wide(), deep(), checks(), repeated(), most_words(), growing(SIDE_NODES)]
}

/// Sides of so many nodes: the left, the right, both.
pub fn nodes(rng: &mut Rng, nodes: usize) -> Vec<Rule> {
    let Rule { left, right } = small(rng);
    let (large_left, large_right) = (padded(rng, &left, nodes), padded(rng, &right, nodes));
    vec![
        Rule { left: large_left.clone(), right: right.clone() },
        Rule { left, right: large_right.clone() },
        Rule { left: large_left, right: large_right },
    ]
}

/// A side with a large term beside it, so many nodes in all.
fn padded(rng: &mut Rng, side: &[u32], nodes: usize) -> Vec<u32> {
    let side = Term::of_words(side);
    let beside = Term::of_nodes(name(rng), nodes - 1 - side.nodes());
    Term::Sym(name(rng), vec![side, beside]).words()
}

/// Sides of this depth: the left, the right.
pub fn depth(rng: &mut Rng, depth: usize) -> Vec<Rule> {
    let pair = Term::under(2, Term::Meta(PAIR, vec![Term::Var(1), Term::Var(0)]));
    let left = vec![pair, Term::Meta(SINGLE, Vec::new())];
    let right = deep_right(rng, 0, depth);
    let of_right = Rule::of(&Term::Sym(name(rng), left.clone()), &right);
    let deep = [left, vec![deep_left(rng, 0, depth - 1)]].concat();
    vec![Rule::of(&Term::Sym(name(rng), deep), &Term::leaf(name(rng))), of_right]
}

/// A left term of so many levels; the last may be a metavariable's arguments.
fn deep_left(rng: &mut Rng, above: usize, levels: usize) -> Term {
    match (levels, rng.below(3)) {
        (1, 0) => Term::Meta(SINGLE, Vec::new()),
        (1, _) => leaf(rng, above),
        (2, 0) if above >= 2 => Term::Meta(PAIR, vec![Term::Var(1), Term::Var(0)]),
        (_, 0) => Term::abst(deep_left(rng, above + 1, levels - 1)),
        _ => Term::Sym(name(rng), vec![leaf(rng, above), deep_left(rng, above, levels - 1)]),
    }
}

/// A right term of so many levels.
fn deep_right(rng: &mut Rng, above: usize, levels: usize) -> Term {
    if levels == 1 {
        return leaf(rng, above);
    }
    if rng.percent(25) {
        return Term::abst(deep_right(rng, above + 1, levels - 1));
    }
    let mut arguments = vec![leaf(rng, above), deep_right(rng, above, levels - 1)];
    if rng.percent(50) {
        arguments.reverse();
    }
    if rng.percent(30) {
        return Term::Sym(name(rng), arguments);
    }
    Term::Meta(PAIR, arguments)
}

/// Nothing but abstractions and one leaf below so many of them, which on the left stand in an
/// argument of the root.
pub fn abstractions(rng: &mut Rng, abstractions: usize) -> Vec<Rule> {
    let single = Term::Meta(SINGLE, Vec::new());
    let leaf = leaf(rng, abstractions - 1);
    let on_left = |leaf: Term| {
        Rule::of(&Term::Sym(PAIR, vec![Term::under(abstractions - 1, leaf)]), &Term::leaf(0))
    };
    let on_right = |leaf: Term| {
        Rule::of(&Term::Sym(PAIR, vec![single.clone()]), &Term::under(abstractions, leaf))
    };
    vec![on_left(leaf.clone()), on_left(single.clone()), on_right(leaf), on_right(single.clone())]
}

/// So many metavariables on the left.
pub fn metavariables(rng: &mut Rng, count: usize) -> Vec<Rule> {
    vec![with_metavariables(rng, count)]
}

/// A symbol or metavariable with so many arguments, on the left and on the right.
pub fn arguments(rng: &mut Rng, count: usize) -> Vec<Rule> {
    let leaves = vec![Term::leaf(name(rng)); count];
    let variables = |count: usize| (0..count as u32).map(Term::Var).collect();
    let under = |occurrence| Term::Sym(PAIR, vec![Term::under(ARGUMENTS + 1, occurrence)]);
    let most = under(Term::Meta(SINGLE, variables(ARGUMENTS)));
    let symbol = Term::Sym(name(rng), leaves.clone());
    vec![
        Rule::of(&symbol, &Term::leaf(0)),
        Rule::of(&Term::leaf(0), &symbol),
        Rule::of(&under(Term::Meta(SINGLE, variables(count))), &Term::leaf(0)),
        Rule::of(&most, &Term::Meta(SINGLE, leaves)),
    ]
}

/// A variable whose index is the number of abstractions above it less `below`: in a symbol or a
/// metavariable of the left side, in a symbol or a body of the right one.
pub fn indices(rng: &mut Rng, below: usize) -> Vec<Rule> {
    let above = rng.between(1, BINDERS - 2);
    let variable = Term::Var((above - below) as u32);
    let pair =
        |name: u32| Term::Sym(name, vec![Term::under(1, Term::Meta(PAIR, vec![Term::Var(0)]))]);
    let under = |term: Term| Term::under(above, term);
    let symbol = under(Term::Sym(name(rng), vec![Term::leaf(0), variable.clone()]));
    let occurrence = under(Term::Meta(PAIR, vec![variable]));
    let (one, other) = (name(rng), name(rng));
    vec![
        Rule::of(&Term::Sym(one, vec![symbol.clone()]), &Term::leaf(other)),
        Rule::of(&Term::Sym(one, vec![occurrence.clone()]), &Term::leaf(other)),
        Rule::of(&pair(one), &symbol),
        Rule::of(&pair(one), &occurrence),
    ]
}

/// Metavariables as far apart as can be: met first under most abstractions or under none, and then
/// the other way round.
pub fn differences(rng: &mut Rng) -> Vec<Rule> {
    let most = DEPTH - 2;
    let (one, other) = (name(rng), name(rng));
    let single = || Term::Meta(SINGLE, Vec::new());
    let rule = |left: Vec<Term>, abstractions: usize| {
        Rule::of(
            &Term::Sym(one, left),
            &Term::Sym(other, vec![Term::under(abstractions, single())]),
        )
    };
    let deep = || Term::under(most, single());
    vec![
        rule(vec![single(), deep()], most),
        rule(vec![deep(), single()], 0),
        rule(vec![deep(), Term::Meta(PAIR, Vec::new()), single(), deep()], rng.below(most)),
    ]
}
