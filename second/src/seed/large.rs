//! Rules as large as a side may be, each with much of one thing, and rules that grow.

use super::rules::Rule;
use super::term::{Term, SIDE_LEAVES};
use crate::limits::{ARGUMENTS, DEPTH, METAVARIABLES, SIDE_NODES};
use Term::{Meta, Sym, Var};

/// Symbols, eight arguments each.
pub fn wide() -> Rule {
    let side = Term::of_nodes(1, SIDE_NODES);
    Rule::of(&side, &side)
}

/// As deep as can be everywhere: a metavariable under as many abstractions as its arguments allow,
/// and bodies in bodies.
pub fn deep() -> Rule {
    const COUNT: usize = 4;
    let chain = Term::chain(2, DEPTH - 2, Term::leaf(3));
    let mut left = vec![Term::under(DEPTH - 3, variables(1, COUNT))];
    left.resize(COUNT, chain);
    let bodies = (1..DEPTH).fold(Term::leaf(3), |body, _| Meta(1, beside(body, COUNT)));
    Rule::of(&Sym(1, left), &bodies)
}

/// Sixteen metavariables without arguments under as many abstractions as that allows: each CHECK
/// lists 60 indices.
pub fn checks() -> Rule {
    let names = 0..METAVARIABLES;
    let firsts = Term::over(1, names.clone().map(nullary).collect());
    let left = Term::under(DEPTH - 1 - firsts.depth(), firsts);
    let others = Term::of_nodes(1, SIDE_NODES - 1 - left.nodes());
    let right = names.cycle().take(SIDE_LEAVES).map(nullary).collect();
    Rule::of(&Sym(1, vec![left, others]), &Term::over(1, right))
}

/// One metavariable at 26 places, its eight arguments turned at each; then bodies in its bodies.
pub fn repeated() -> Rule {
    const PLACES: usize = 26;
    let turned = |place| {
        let argument = |argument| Var(((place + argument) % ARGUMENTS) as u32);
        Meta(1, (0..ARGUMENTS).map(argument).collect())
    };
    let left = Term::under(ARGUMENTS, Term::over(1, (0..PLACES).map(turned).collect()));
    let levels = SIDE_NODES / ARGUMENTS - 1;
    let right = (0..levels).fold(Term::leaf(3), |body, _| Meta(1, beside(body, ARGUMENTS)));
    Rule::of(&Sym(1, vec![left]), &right)
}

/// The most words of code that we could make a rule have, 3,453: on the left as told there; on the
/// right PUSHIs, nearly all of them in bodies.
pub fn most_words() -> Rule {
    // Eight levels of two arguments have 255 nodes.
    let pushed = (1..8).fold(nullary(1), |body, _| Meta(0, vec![body.clone(), body]));
    Rule::of(&most_words_on_left(), &Sym(1, vec![pushed]))
}

/// The metavariables as in `checks`, one of them with the two arguments that the right side needs;
/// then EQIs, and as few symbols as can hold them.
fn most_words_on_left() -> Term {
    let with_again = |mut terms: Vec<Term>| {
        terms.resize(ARGUMENTS, nullary(1));
        Sym(1, terms)
    };
    let half = ARGUMENTS + 1;
    let firsts = [(1..half).map(nullary).collect(), (half..METAVARIABLES).map(nullary).collect()];
    let mut below = Vec::from(firsts.map(with_again));
    below.push(variables(0, 2));
    let first = Term::under(DEPTH - 4, with_again(below));
    // As many levels as 256 nodes allow.
    let again = (0..20).fold(Sym(1, vec![nullary(1)]), |term, _| with_again(vec![term]));
    with_again(vec![first, again])
}

/// So many metavariables; the same on the right in the opposite order, but for the last one, which
/// with `absent` does not stand on the left.
pub fn many_metavariables(many: usize, absent: bool) -> Rule {
    let last = if absent { many } else { 0 };
    let right = (1..many).rev().chain([last]).map(nullary).collect();
    let left = (0..many).map(nullary).collect();
    Rule::of(&Term::over(1, left), &Term::over(1, right))
}

/// One metavariable too many, and one of them wherever there is room: nothing parts its places.
pub fn one_metavariable() -> Rule {
    let right = vec![nullary(METAVARIABLES); SIDE_LEAVES];
    let left = (0..SIDE_LEAVES).map(|place| nullary(place.min(METAVARIABLES))).collect();
    Rule::of(&Term::over(1, left), &Term::over(1, right))
}

/// So many nodes, eight for each occurrence of one of four metavariables under two abstractions.
pub fn growing(nodes: usize) -> Rule {
    const OF_BLOCK: usize = 8;
    let block = |below: Option<Term>, number: usize| {
        let occurrence = Term::under(2, variables(number as u32 % 4, 2));
        let mut arguments = vec![occurrence, Term::leaf(2), Term::leaf(3)];
        arguments.extend(below);
        Some(Sym(1, arguments))
    };
    let side = (0..nodes / OF_BLOCK).fold(None, block).expect("there is a block");
    Rule::of(&side, &side)
}

/// A metavariable without arguments.
fn nullary(name: usize) -> Term {
    Meta(name as u32, Vec::new())
}

/// A metavariable with so many variables.
fn variables(name: u32, count: usize) -> Term {
    Meta(name, (0..count as u32).map(Var).collect())
}

/// A term and further arguments, so many in all.
fn beside(term: Term, count: usize) -> Vec<Term> {
    let mut arguments = vec![term];
    arguments.resize(count, Term::leaf(3));
    arguments
}
