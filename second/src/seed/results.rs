//! Rules and subjects whose results stand at the limits 13, 14 and 15.

use super::rng::Rng;
use super::rules::Rule;
use super::term::Term;
use crate::limits::{INDEX, RESULT_NODES};

/// A rule, a subject that it matches and the words of the result table.
#[derive(Clone, Debug)]
pub struct ResultCase {
    pub rule: Rule,
    pub subject: Vec<u32>,
    pub result_words: usize,
}

/// How many kinds `result_at_limit` knows.
pub const RESULT_CASES: usize = 12;

const WHOLE: usize = 2 * RESULT_NODES;

fn f(argument: Term) -> Term {
    Term::Sym(1, vec![argument])
}

fn g(arguments: Vec<Term>) -> Term {
    Term::Sym(2, arguments)
}

fn z(arguments: Vec<Term>) -> Term {
    Term::Meta(7, arguments)
}

fn case(left: Term, right: Term, subject: Term, result_words: usize) -> ResultCase {
    ResultCase { rule: Rule::of(&left, &right), subject: subject.words(), result_words }
}

/// A case of this kind, 0 to `RESULT_CASES` - 1: at the limit, or with `over` past it.
pub fn result_at_limit(rng: &mut Rng, kind: usize, over: bool) -> ResultCase {
    let one = usize::from(over);
    match kind {
        // 13 at 4,096 nodes: three nodes beside two copies, then one more.
        0 => {
            let beside = vec![Term::leaf(3); 1 + one];
            let right = g([vec![z(vec![]), z(vec![])], beside].concat());
            case(f(z(vec![])), right, f(Term::of_nodes(5, 2_047)), WHOLE + rng.below(3))
        }
        // 13 at half the result table, rounded down.
        1 => {
            let nodes = rng.between(1, 30);
            let words = 2 * (nodes + 1 - one) + rng.below(2);
            case(f(z(vec![])), f(z(vec![])), f(Term::of_nodes(5, nodes)), words)
        }
        // 14 by the rule's own levels over the entry's.
        2 => {
            let levels = rng.between(1, 40);
            let chain = Term::chain(5, 63 - levels, Term::leaf(4));
            let right = Term::chain(6, levels + one, z(vec![]));
            case(f(z(vec![])), right, f(chain), WHOLE)
        }
        // 14 through a body: the entry's levels over the body's.
        3 => {
            let levels = rng.between(2, 60);
            let right = z(vec![Term::chain(6, 63 - levels + one, Term::leaf(4))]);
            let chain = Term::chain(5, levels, Term::Var(0));
            case(f(Term::abst(z(vec![Term::Var(0)]))), right, f(Term::abst(chain)), WHOLE)
        }
        4..=6 => indices(rng, kind, one as u32),
        _ => several(rng, kind, over),
    }
}

/// 15 at 65,535, by d, by OFFSET and by both.
fn indices(rng: &mut Rng, kind: usize, one: u32) -> ResultCase {
    let by = rng.between(1, 30);
    let variable = Term::Var(INDEX - by as u32 + one);
    if kind == 4 {
        return case(f(z(vec![])), Term::under(by, z(vec![])), f(variable), WHOLE);
    }
    // A body that pushes the second entry, inside `by` abstractions of the first.
    let left = g(vec![Term::abst(z(vec![Term::Var(0)])), Term::Meta(8, vec![])]);
    let right = z(vec![Term::Meta(8, vec![])]);
    let first = Term::abst(Term::under(by, Term::Var(by as u32)));
    if kind == 5 {
        return case(left, right, g(vec![first, variable]), WHOLE);
    }
    let low = Term::Var(INDEX - by as u32 + one - 1);
    case(left, Term::abst(right), g(vec![first, low]), WHOLE)
}

/// Several limits broken at once, and results of exponential size.
fn several(rng: &mut Rng, kind: usize, over: bool) -> ResultCase {
    let doubled = Term::abst(Term::Sym(5, vec![Term::Var(0), Term::Var(0)]));
    let keyed = f(Term::abst(z(vec![Term::Var(0)])));
    let times = |times: usize| (0..times).fold(Term::leaf(3), |term, _| z(vec![term]));
    let chain = Term::chain(5, 62, Term::Var(INDEX));
    match kind {
        // Two to the power of the levels: 2,047 or 4,095 nodes; over: 8,191 or far more.
        7 => {
            let levels = if over { *rng.pick(&[12, 13, 20, 40, 60]) } else { rng.between(10, 11) };
            case(keyed, times(levels), f(doubled), WHOLE)
        }
        // Entries 63 deep in one another: 14, or 13 with a short result table.
        8 => {
            let deep = Term::abst(Term::chain(5, 61, Term::Var(0)));
            let words = if over { 200 } else { WHOLE };
            case(keyed, times(60), f(deep), words)
        }
        // 14 and 15; over: 13 too.
        9 => {
            let right = Term::under(3, z(vec![]));
            case(f(z(vec![])), right, f(chain), if over { 100 } else { WHOLE })
        }
        // 15 alone; over: 13 and 15.
        10 => {
            let words = if over { 2 } else { 4 };
            case(f(z(vec![])), Term::abst(z(vec![])), f(Term::Var(INDEX)), words)
        }
        // A deep path early, too many nodes late: 13; over: a short table.
        _ => {
            let right = g(vec![Term::under(60, z(vec![])), Term::of_nodes(4, 100)]);
            let words = if over { rng.below(9) } else { 2 * (1 + 60 + 63 + 100) };
            case(f(z(vec![])), right, f(chain), words)
        }
    }
}
