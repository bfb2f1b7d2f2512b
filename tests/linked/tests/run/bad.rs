//! Subjects that are refused for one thing, at any place where it can stand.

use second::limits::{ARGUMENTS, DEPTH, NODE_WORDS, SUBJECT_NODES};
use second::seed::{Rng, Term};

use crate::accepted::name;
use crate::cases::Case;
use crate::spoilt;

/// More words than the limit allows.
const TOO_MANY: usize = NODE_WORDS * SUBJECT_NODES + 1;

// 1: table not good.

/// Every part of the subject that begins where it begins, the empty one too.
pub fn every_cut(_: &mut Rng, case: &Case) -> Vec<Vec<u32>> {
    (0..case.subject.len()).map(|end| case.subject[..end].to_vec()).collect()
}

pub fn words_after(rng: &mut Rng, case: &Case) -> Vec<Vec<u32>> {
    changed(rng, case, |rng, subject| {
        let another = subject.clone();
        spoilt::words_after(rng, subject, another);
    })
}

pub fn no_such_node(rng: &mut Rng, case: &Case) -> Vec<Vec<u32>> {
    changed(rng, case, |rng, subject| spoilt::no_such_node(rng, subject))
}

pub fn another_count(rng: &mut Rng, case: &Case) -> Vec<Vec<u32>> {
    changed(rng, case, |rng, subject| spoilt::another_count(rng, subject))
}

fn changed(rng: &mut Rng, case: &Case, change: fn(&mut Rng, &mut Vec<u32>)) -> Vec<Vec<u32>> {
    let mut subject = case.subject.clone();
    change(rng, &mut subject);
    vec![subject]
}

// 2: more words than the node limit allows.

/// The subject with words after it, words of any value, or a good table of too many nodes.
pub fn too_long(rng: &mut Rng, case: &Case) -> Vec<Vec<u32>> {
    let words = TOO_MANY + *rng.pick(&[0, 0, 1, 2, 63, 4_000]);
    let mut after = case.subject.clone();
    after.resize(words, rng.below(2) as u32);
    let any = (0..words).map(|_| rng.bits() as u32).collect();
    let good = Term::of_nodes(name(rng), SUBJECT_NODES + rng.between(1, 3)).words();
    vec![after, any, good]
}

// 3: too deep.

/// A node of the subject is one that is too deep there, by one or more; the others are as before.
pub fn too_deep(rng: &mut Rng, case: &Case) -> Vec<Vec<u32>> {
    vec![with_depth(rng, case, DEPTH + 1), {
        let depth = DEPTH + rng.between(1, 20);
        with_depth(rng, case, depth)
    }]
}

/// The subject with a leaf of just this depth in place of some node.
pub fn with_depth(rng: &mut Rng, case: &Case, depth: usize) -> Vec<u32> {
    let mut subject = Term::of_words(&case.subject);
    let above = depths(&subject);
    let node = rng.below(above.len());
    let levels = depth - above[node];
    *subject.at_mut(node) = match rng.below(3) {
        0 => Term::chain(name(rng), levels, Term::leaf(1)),
        1 => Term::under(levels, Term::Var(rng.below(levels) as u32)),
        _ => (0..levels).fold(Term::leaf(1), |term, _| {
            let mut arguments = vec![Term::leaf(2); rng.between(1, ARGUMENTS)];
            let place = rng.below(arguments.len());
            arguments[place] = term;
            Term::Sym(name(rng), arguments)
        }),
    };
    subject.words()
}

/// The depth of each node, in prefix order.
fn depths(term: &Term) -> Vec<usize> {
    fn visit(term: &Term, depth: usize, all: &mut Vec<usize>) {
        all.push(depth);
        term.arguments().iter().for_each(|argument| visit(argument, depth + 1, all));
    }
    let mut all = Vec::new();
    visit(term, 1, &mut all);
    all
}

// 4: metavariable in subject.

/// A node becomes a metavariable: with its own arguments, or alone.
pub fn metavariable(rng: &mut Rng, case: &Case) -> Vec<Vec<u32>> {
    let mut subject = Term::of_words(&case.subject);
    let node = rng.below(subject.nodes());
    let node = subject.at_mut(node);
    let arguments = if rng.percent(70) { node.arguments().to_vec() } else { Vec::new() };
    *node = Term::Meta(name(rng), arguments);
    vec![subject.words()]
}
