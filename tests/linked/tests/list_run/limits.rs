//! Plans at a limit and one past it, after several rewrites: each function gives a case that makes
//! just so many rewrites (or all there are), and how many words its largest plan has.

use second::limits::{DEPTH, INDEX, NODE_WORDS};
use second::seed::{Rng, Term};
use Term::{Sym, Var};

use crate::cases::{rule, x, y, Case};

/// A case, and how many words the largest plan of its sequence has.
pub type Sized = (Case, usize);

const LEAF: u32 = 1;
const GROWS: u32 = 2;
const MARK: u32 = 3;
const ENDS: u32 = 4;

fn wide(count: usize) -> Term {
    Sym(5, vec![Term::leaf(LEAF); count])
}

/// A leaf becomes `more` + 1 nodes, at `times` places one after the other: just so many nodes in the
/// end, or as many as the places make.
fn growing(rng: &mut Rng, times: usize, more: usize) -> (Vec<u32>, Term) {
    let leaf = Term::leaf(GROWS);
    let code = rule(&leaf, &wide(more));
    let beside = Term::of_nodes(6, rng.between(1, 30));
    (code, Sym(7, vec![Term::over(8, vec![leaf; times]), beside]))
}

/// Nodes that come one by one, up to what the result table holds, or 4,096.
pub fn nodes(rng: &mut Rng) -> Sized {
    let (times, more) = (rng.between(1, 40), rng.between(1, 8));
    let (code, plan) = growing(rng, times, more);
    let largest = NODE_WORDS * (plan.nodes() + times * more);
    (Case::new(vec![code], &plan, times as u32 + rng.below(3) as u32), largest)
}

/// The same with so many nodes in the end.
pub fn all_nodes(rng: &mut Rng, nodes: usize) -> Case {
    let (times, more) = (rng.between(1, 40), rng.between(1, 8));
    let (code, plan) = growing(rng, times, more);
    let missing = nodes - plan.nodes() - times * more - 1;
    let plan = Sym(9, vec![plan, Term::of_nodes(6, missing)]);
    Case::new(vec![code], &plan, times as u32)
}

/// All this once done is left out again: the last plan is one node. What is given is the largest one.
pub fn between(rng: &mut Rng) -> Sized {
    let (times, more) = (rng.between(1, 30), rng.between(1, 8));
    let (code, plan) = growing(rng, times, more);
    let plan = Sym(10, vec![plan, Term::leaf(MARK)]);
    let codes = vec![
        code,
        rule(&Term::leaf(MARK), &Term::leaf(ENDS)),
        rule(&Sym(10, vec![x(), Term::leaf(ENDS)]), &Term::leaf(LEAF)),
    ];
    let largest = NODE_WORDS * (plan.nodes() + times * more);
    (Case::new(codes, &plan, times as u32 + 2 + rng.below(4) as u32), largest)
}

/// A term below so many levels, symbols with others beside it and abstractions.
fn below(rng: &mut Rng, levels: usize, term: Term) -> Term {
    (0..levels).fold(term, |term, _| match rng.below(4) {
        0 => Term::abst(term),
        1 => Sym(6, vec![Term::of_nodes(6, rng.between(1, 3)), term]),
        2 => Sym(6, vec![term, Var(rng.below(9) as u32)]),
        _ => Sym(6, vec![term]),
    })
}

/// A level more each time, down to this depth in the end; `over` is one rewrite more.
pub fn depth(rng: &mut Rng, over: u32) -> Case {
    let times = rng.between(1, 30);
    // Of the new part, or of what it holds: levels above it count in any case.
    let kept = rng.between(1, 10);
    let levels = DEPTH - 1 - times - kept;
    let part = |below| Sym(GROWS, vec![below]);
    let deeper = match rng.below(3) {
        0 => Sym(6, vec![part(x())]),
        1 => part(Sym(6, vec![x()])),
        _ => Term::abst(part(x())),
    };
    let code = rule(&part(x()), &deeper);
    let held = Term::chain(6, kept - 1, Term::leaf(LEAF));
    let plan = below(rng, levels, part(held));
    Case::new(vec![code], &plan, times as u32 + over)
}

/// G(x, y) to G([y], x): every rewrite turns the two and puts a level over one of them, so that the
/// deepest node is one that was only moved.
pub fn depth_of_entry(rng: &mut Rng, over: u32) -> Case {
    let turn = rule(&Sym(GROWS, vec![x(), y()]), &Sym(GROWS, vec![Term::abst(y()), x()]));
    let times = rng.between(1, 12);
    // Below two nodes, and after so many rewrites: the deepest that may be; one more is over.
    let deepest = DEPTH - 2 - times / 2;
    let (first, second) = match times % 2 {
        0 => (deepest - rng.below(6), deepest),
        _ => (deepest, deepest - rng.between(1, 6)),
    };
    let chain = |depth: usize| Term::chain(6, depth - 1, Term::leaf(LEAF));
    let plan = Sym(9, vec![Sym(GROWS, vec![chain(first), chain(second)])]);
    Case::new(vec![turn], &plan, times as u32 + over)
}

/// An index one higher each time, up to 65,535 in the end; `over` is one rewrite more.
pub fn index(rng: &mut Rng, over: u32) -> Case {
    let times = rng.between(1, 30);
    let part = |below| Sym(GROWS, vec![below]);
    let code = rule(&part(x()), &part(Term::abst(x())));
    let inside = rng.below(5);
    let around = rng.below(15);
    let high = Var(INDEX - times as u32);
    let held = match rng.below(3) {
        0 => high,
        1 => Sym(6, vec![Var(0), high, Term::leaf(LEAF)]),
        _ => Term::under(inside, Sym(6, vec![high, Var(1)])),
    };
    let plan = below(rng, around, part(held));
    Case::new(vec![code], &plan, times as u32 + over)
}

/// Two limits broken by one rewrite, after others that break none: the first of 13, 14, 15 shows. The
/// words are just enough for the plan before that one.
pub fn several(rng: &mut Rng, breaks: [bool; 3]) -> (Case, usize) {
    let [large, deep, high] = breaks;
    let times = rng.between(0, 6);
    let settle = rule(&Term::leaf(MARK), &Term::leaf(ENDS));
    let marks = Sym(6, vec![Term::leaf(MARK); times]);
    // F(Z) to [[[Z]]], which is two nodes and levels more, and an index three higher.
    let code = rule(&Sym(GROWS, vec![x()]), &Term::under(3, x()));
    let levels = if deep { DEPTH - 3 } else { rng.below(DEPTH - 5) };
    let index = if high { INDEX - rng.below(3) as u32 } else { INDEX - 3 - rng.below(9) as u32 };
    let chain = Term::chain(6, levels, Var(index));
    let plan = Sym(7, vec![marks, Sym(GROWS, vec![chain])]);
    let words = NODE_WORDS * plan.nodes();
    let words = if large { words + rng.below(4) } else { words + 4 };
    let case = Case::new(vec![settle, code], &plan, times as u32 + 1 + rng.below(3) as u32);
    (case, words)
}

/// A part of two to the power of the levels: more than any plan has.
pub fn exponential(rng: &mut Rng) -> Case {
    let keyed = Sym(GROWS, vec![Term::abst(Term::Meta(3, vec![Var(0)]))]);
    let levels = *rng.pick(&[12, 20, 31, 32, 33, 60]);
    let right = (0..levels).fold(Term::leaf(LEAF), |term, _| Term::Meta(3, vec![term]));
    let twice = Term::abst(Sym(6, vec![Var(0), Var(0)]));
    let around = rng.below(20);
    let mark = rule(&Term::leaf(MARK), &Term::leaf(ENDS));
    let plan = Sym(6, vec![Term::leaf(MARK), Sym(GROWS, vec![twice])]);
    let plan = below(rng, around, plan);
    Case::new(vec![mark, rule(&keyed, &right)], &plan, 2)
}
