//! Results at a limit and one past it: each function takes what is counted, and gives a case for
//! each way to come to it. In all else they are within the limits.

use linked::code::*;
use second::limits::{ARGUMENTS, BINDERS, DEPTH, INDEX, NESTING, SUBJECT_NODES};
use second::seed::{Rng, Term};
use Term::{Meta, Sym, Var};

use crate::accepted::name;
use crate::cases::Case;

/// The deepest that an argument of a subject's root can be.
const BELOW_ROOT: usize = DEPTH - 1;

fn z() -> Term {
    Meta(7, Vec::new())
}

fn y() -> Term {
    Meta(8, Vec::new())
}

fn f(arguments: Vec<Term>) -> Term {
    Sym(1, arguments)
}

/// F([Z(0)], Y): a body can push the second entry.
fn keyed() -> Term {
    f(vec![Term::abst(Meta(7, vec![Var(0)])), y()])
}

/// Z(this).
fn z_of(argument: Term) -> Term {
    Meta(7, vec![argument])
}

// 13: nodes.

/// Results of so many nodes, more than forty.
pub fn nodes(rng: &mut Rng, nodes: usize) -> Vec<Case> {
    vec![
        copies(rng, nodes),
        bodies(rng, nodes),
        many_bodies(rng, nodes),
        as_it_is(rng, nodes),
        of_code(rng, nodes),
    ]
}

/// Two copies of an entry and leaves beside them.
fn copies(rng: &mut Rng, nodes: usize) -> Case {
    let leaves = nodes % 2 + 1 + 2 * rng.below(3);
    let entry = (nodes - 1 - leaves) / 2;
    let mut right = vec![Term::leaf(name(rng)); leaves];
    right.extend([z(), z()]);
    Case::of_rule(&f(vec![z()]), &Sym(2, right), &f(vec![Term::of_nodes(name(rng), entry)]))
}

/// Eight keyed variables in an entry, each replaced by a copy of another one, and leaves beside.
fn bodies(rng: &mut Rng, nodes: usize) -> Case {
    let each = (nodes - 2) / ARGUMENTS;
    let leaves = nodes - 2 - ARGUMENTS * each;
    let mut right = vec![z_of(y())];
    right.extend(vec![Term::leaf(name(rng)); leaves]);
    let first = Term::abst(Sym(name(rng), vec![Var(0); ARGUMENTS]));
    let second = Term::of_nodes(name(rng), each);
    Case::of_rule(&keyed(), &Sym(2, right), &f(vec![first, second]))
}

/// As many keyed variables as there is room for, each replaced by two nodes, and an entry beside.
fn many_bodies(rng: &mut Rng, nodes: usize) -> Case {
    let places = nodes * 2 / 5;
    let first = Term::over(name(rng), vec![Var(0); places]);
    let second = Term::of_nodes(name(rng), nodes - 1 - first.nodes() - places);
    let body = Sym(name(rng), vec![Term::leaf(name(rng))]);
    let right = Sym(2, vec![z_of(body), y()]);
    Case::of_rule(&keyed(), &right, &f(vec![Term::abst(first), second]))
}

/// PUSHIMM, again and again, with CELLs over the terms.
fn as_it_is(rng: &mut Rng, nodes: usize) -> Case {
    let times = rng.between(1, ARGUMENTS - 1);
    let entry = (nodes - 1) / times;
    let leaves = nodes - 1 - times * entry;
    let subject = Term::of_nodes(name(rng), entry);
    let mut building = [PUSHIMM, 0].repeat(times);
    if leaves > 0 {
        building.extend([CELL, name(rng), 0].repeat(leaves - 1));
        building.extend([CELL, name(rng), leaves as u32 - 1]);
    }
    building.extend([CELL, name(rng), (times + usize::from(leaves > 0)) as u32]);
    Case::new([vec![SET, NEXT], building].concat(), subject.words())
}

/// CELLs over one another, over an entry that is nearly all of the result.
fn of_code(rng: &mut Rng, nodes: usize) -> Case {
    // The subject's root is no part of the entry.
    let entry = (nodes - rng.between(1, 40)).min(SUBJECT_NODES - 1);
    let cells = nodes - entry;
    let right = Term::chain(name(rng), cells, z());
    Case::of_rule(&f(vec![z()]), &right, &f(vec![Term::of_nodes(name(rng), entry)]))
}

/// So many keyed variables and bodies of so many nodes that all of them are a multiple of 65,536,
/// and few more.
pub fn product(rng: &mut Rng) -> Vec<Case> {
    let places = *rng.pick(&[64, 128, 256, 512, 1_024]);
    let each = (1 << 16) / places * rng.between(1, 2);
    let first = Term::abst(Term::over(name(rng), vec![Var(0); places]));
    // A variable is one of the nodes that a body makes in its place.
    let second = Term::of_nodes(name(rng), each + 1);
    vec![Case::of_rule(&keyed(), &z_of(y()), &f(vec![first, second]))]
}

/// Entries with two keyed variables, bodies in bodies: two to the power of the levels.
pub fn exponential(rng: &mut Rng, levels: usize) -> Vec<Case> {
    let twice = Term::abst(Sym(name(rng), vec![Var(0), Var(0)]));
    let leaf = [CELL, name(rng), 0];
    let bodies = nested(&vec![Level::Body; levels], &leaf);
    vec![Case::new([&[ISABST, SET, NEXT], &bodies[..]].concat(), twice.words())]
}

// 14: depth.

/// Results of this depth.
pub fn depth(rng: &mut Rng, depth: usize) -> Vec<Case> {
    let levels = rng.between(1, depth - 2);
    let chain = |rng: &mut Rng, depth: usize, end: Term| match rng.below(2) {
        0 => Term::chain(name(rng), depth - 1, end),
        _ => Term::under(depth - 1, end),
    };
    // The right side is no deeper than it may be either.
    let entry = rng.between(depth - DEPTH + 1, BELOW_ROOT.min(depth - 1));
    let pushed = chain(rng, entry, Term::leaf(2));
    let above = chain(rng, depth - entry + 1, z());
    let right = beside(rng, above);
    let mut all = vec![Case::of_rule(&f(vec![z()]), &right, &f(vec![pushed]))];
    all.push(code_alone(rng, depth));
    all.push(deep_body(rng, depth, levels));
    all.push(deep_at_one_place(rng, depth));
    all.push(deep_entry(rng, depth));
    all.push(deep_as_it_is(rng, depth));
    all
}

/// A term of the same depth with others beside it.
fn beside(rng: &mut Rng, term: Term) -> Term {
    match term {
        Sym(name_of, mut arguments) if rng.percent(70) => {
            arguments.insert(rng.below(2), Term::leaf(name(rng)));
            Sym(name_of, arguments)
        }
        other => other,
    }
}

/// Blocks and CELLs without an entry.
fn code_alone(rng: &mut Rng, depth: usize) -> Case {
    let blocks = rng.below(BINDERS.min(depth - 1) + 1);
    let mut inside = vec![CELL, name(rng), 0];
    (0..depth - 1 - blocks).for_each(|_| inside.extend([CELL, name(rng), 1]));
    let code = [vec![NEXT], in_blocks(blocks, &inside)].concat();
    Case::new(code, Term::leaf(1).words())
}

/// An entry with so many levels over its keyed variable, and a body below that.
fn deep_body(rng: &mut Rng, depth: usize, levels: usize) -> Case {
    let levels = levels.min(BELOW_ROOT - 2);
    let below = (depth - levels).min(BELOW_ROOT);
    let above = depth - levels - below;
    let first = Term::abst(Term::chain(name(rng), levels, Var(0)));
    // The body's levels are the second entry's, or its own.
    if rng.percent(50) {
        let second = Term::chain(name(rng), below - 1, Term::leaf(3));
        let right = Term::chain(name(rng), above, z_of(y()));
        return Case::of_rule(&keyed(), &right, &f(vec![first, second]));
    }
    let body = Term::chain(name(rng), below - 1, Term::leaf(3));
    let right = Term::chain(name(rng), above, z_of(body));
    if right.depth() > DEPTH {
        return code_alone(rng, depth);
    }
    Case::of_rule(&keyed(), &right, &f(vec![first, Term::leaf(1)]))
}

/// A keyed variable at three places, of which one decides.
fn deep_at_one_place(rng: &mut Rng, depth: usize) -> Case {
    let levels = rng.between(2, 40);
    let below = depth - levels - 1;
    let mut places = vec![Var(0), Term::chain(name(rng), levels - 1, Var(0))];
    places.insert(rng.below(3), Term::chain(name(rng), levels, Var(0)));
    let second = Term::chain(name(rng), below - 1, Term::leaf(3));
    let first = Term::abst(Sym(name(rng), places));
    Case::of_rule(&keyed(), &z_of(y()), &f(vec![first, second]))
}

/// An entry that is deep where no keyed variable stands, with a keyed one higher up.
fn deep_entry(rng: &mut Rng, depth: usize) -> Case {
    const SPARE: usize = 5;
    let levels = depth - SPARE;
    let first = Sym(name(rng), vec![Var(0), Term::chain(name(rng), levels - 2, Term::leaf(3))]);
    let above = Term::chain(name(rng), SPARE, z_of(y()));
    Case::of_rule(&keyed(), &above, &f(vec![Term::abst(first), Term::chain(2, 9, Term::leaf(3))]))
}

/// PUSHIMM below CELLs, and in the blocks of its entry's abstractions.
fn deep_as_it_is(rng: &mut Rng, depth: usize) -> Case {
    let bound = rng.below(30);
    let cells = rng.between(1, 20);
    let entry = depth - cells - bound;
    let subject = Term::under(bound, Term::chain(name(rng), entry - 1, Var(0)));
    let mut building = in_blocks(bound, &[PUSHIMM, 0]);
    (0..cells).for_each(|_| building.extend([CELL, name(rng), 1]));
    Case::new([vec![ISABST; bound], vec![SET, NEXT], building].concat(), subject.words())
}

/// 64 bodies in one another, each over an entry of this depth.
pub fn deep_bodies(rng: &mut Rng, entry: usize) -> Vec<Case> {
    // Under one abstraction, which is no part of the entry.
    let subject = Term::abst(Term::chain(name(rng), entry - 1, Var(0)));
    let lifted = Term::under(entry, Var(entry as u32 - 1));
    let leaf = [CELL, name(rng), 0];
    let code = [&[ISABST, SET, NEXT], &nested(&[Level::Body; NESTING], &leaf)[..]].concat();
    vec![Case::new(code.clone(), subject.words()), Case::new(code, lifted.words())]
}

// 15: indices.

/// Results with this index, between 65,500 and 65,600.
pub fn index(rng: &mut Rng, index: u32) -> Vec<Case> {
    vec![
        moved(rng, index),
        by_offset(rng, index),
        by_both(rng, index),
        by_two_bodies(rng, index),
        at_one_place(rng, index),
        in_a_block_of_a_body(rng, index),
    ]
}

/// A variable somewhere in a term.
fn holding(rng: &mut Rng, variable: Term) -> Term {
    match rng.below(4) {
        0 => variable,
        1 => Sym(name(rng), vec![Term::leaf(2), variable]),
        2 => Sym(name(rng), vec![variable, Var(3), Var(0)]),
        _ => {
            let Var(index) = variable else { unreachable!("a variable") };
            // The index counts the abstraction above it too.
            Term::abst(Sym(name(rng), vec![Var(0), Var(index)]))
        }
    }
}

/// By d: abstractions of the right side.
pub fn moved(rng: &mut Rng, index: u32) -> Case {
    // A subject's own index is no higher than 65,535.
    let by = rng.between(index.saturating_sub(INDEX).max(1) as usize, 40);
    let entry = holding(rng, Var(index - by as u32));
    Case::of_rule(&f(vec![z()]), &Term::under(by, z()), &f(vec![entry]))
}

/// An entry with a keyed variable inside so many abstractions.
fn inside(rng: &mut Rng, abstractions: usize) -> Term {
    let variable = Var(abstractions as u32);
    let body = if rng.percent(50) { variable } else { Sym(name(rng), vec![Var(0), variable]) };
    Term::abst(Term::under(abstractions, body))
}

/// By OFFSET: a body pushes an entry inside abstractions of another.
fn by_offset(rng: &mut Rng, index: u32) -> Case {
    let by = rng.between(1, 40);
    let (first, entry) = (inside(rng, by), holding(rng, Var(index - by as u32)));
    Case::of_rule(&keyed(), &z_of(y()), &f(vec![first, entry]))
}

fn by_both(rng: &mut Rng, index: u32) -> Case {
    let (by, blocks) = (rng.between(1, 30), rng.between(1, 20));
    let (first, entry) = (inside(rng, by), holding(rng, Var(index - (by + blocks) as u32)));
    Case::of_rule(&keyed(), &Term::under(blocks, z_of(y())), &f(vec![first, entry]))
}

/// Bodies in bodies: the offsets add up.
fn by_two_bodies(rng: &mut Rng, index: u32) -> Case {
    let by = rng.between(1, 20);
    let entry = holding(rng, Var(index - 2 * by as u32));
    Case::of_rule(&keyed(), &z_of(z_of(y())), &f(vec![inside(rng, by), entry]))
}

/// A keyed variable at three places, of which one decides.
fn at_one_place(rng: &mut Rng, index: u32) -> Case {
    let by = rng.between(2, 40);
    let inside = |by: usize| Term::under(by, Var(by as u32));
    let mut places = vec![Var(0), inside(by - 1)];
    places.insert(rng.below(3), inside(by));
    let entry = holding(rng, Var(index - by as u32));
    let first = Term::abst(Sym(name(rng), places));
    Case::of_rule(&keyed(), &z_of(y()), &f(vec![first, entry]))
}

/// A block in the body between the two.
fn in_a_block_of_a_body(rng: &mut Rng, index: u32) -> Case {
    let (by, blocks) = (rng.between(1, 20), rng.between(1, 20));
    let entry = holding(rng, Var(index - (by + blocks) as u32));
    let right = z_of(Term::under(blocks, y()));
    Case::of_rule(&keyed(), &right, &f(vec![inside(rng, by), entry]))
}

/// An EQI that moves a variable to this index, and stands before what has this first word: the
/// variable itself, or above 65,535 a symbol, which is not it.
pub fn compared(rng: &mut Rng, index: u32) -> Vec<Case> {
    let by = rng.between(index.saturating_sub(INDEX).max(1) as usize, 40);
    let (shape, over) = (rng.below(3), name(rng));
    let held = |leaf: Term| match shape {
        0 => leaf,
        1 => Sym(over, vec![Term::leaf(2), leaf]),
        _ => Term::abst(Sym(over, vec![Var(0), leaf])),
    };
    let met = if index > INDEX { Term::leaf(index - INDEX - 1) } else { Var(index) };
    let left = f(vec![z(), Term::under(by, z())]);
    let subject = f(vec![held(Var(index - by as u32)), Term::under(by, held(met))]);
    vec![Case::of_rule(&left, &Term::leaf(3), &subject)]
}

/// 65,535 that is handed on as it is, and 65,535 lowered: neither is too high.
pub fn highest_kept(rng: &mut Rng) -> Vec<Case> {
    let bound = rng.between(1, 20);
    let entry = Term::under(bound, Sym(name(rng), vec![Var(INDEX), Term::leaf(2)]));
    let listed: Vec<u32> = (0..bound as u32).collect();
    let matching = [&vec![ISABST; bound], &check(&listed)[..], &[SET, NEXT]].concat();
    let same = in_blocks(bound, &[PUSHIMM, 0]);
    let same_too = in_blocks(bound, &pushi(0, difference(bound, bound), &[]));
    let lowered = pushi(0, difference(0, bound), &[]);
    [same, same_too, lowered]
        .map(|building| Case::new([&matching[..], &building].concat(), entry.words()))
        .into()
}

// Bodies that never run.

/// A body whose key the entry lacks, or that is not the first for its key, would break every limit.
pub fn never_run(rng: &mut Rng) -> Vec<Case> {
    const LEVELS: usize = 40;
    let twice = Sym(name(rng), vec![Var(0), Var(0)]);
    let subject = Sym(1, vec![Term::abst(twice), Term::abst(holding(rng, Var(INDEX)))]);
    // The newest entry lacks its keyed variable but for holding's own, which is bound.
    let matching = [IS, 1, 2, ISABST, SET, NEXT, ISABST, CHECK, 0, SET, NEXT];
    let leaf = vec![CELL, name(rng), 0];
    let huge = (0..LEVELS).fold(leaf.clone(), |body, _| pushi(1, difference(0, 1), &[(0, body)]));
    let deep = [&leaf[..], &[CELL, 1, 1].repeat(DEPTH + 1)].concat();
    let first_counts =
        |body: &[u32]| pushi(1, difference(0, 1), &[(0, leaf.clone()), (0, body.to_vec())]);
    let mut all = Vec::new();
    for body in [&huge, &deep] {
        all.push(Case::new([&matching[..], &first_counts(body)].concat(), subject.words()));
        let lacks = pushi(0, difference(0, 1), &[(0, body.clone())]);
        let lowered = Sym(1, vec![Term::abst(Var(0)), Term::abst(Var(rng.between(1, 9) as u32))]);
        all.push(Case::new([&matching[..], &lacks].concat(), lowered.words()));
    }
    all
}
