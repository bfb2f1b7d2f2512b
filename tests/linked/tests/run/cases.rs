//! Code with a subject.

use linked::code::{check, difference, eqi, pushi, CELL, EQI, ISABST, NEXT, SET};
use second::limits::{ARGUMENTS, BINDERS, CODE_WORDS, DEPTH, INDEX, NODE_WORDS, SUBJECT_NODES};
use second::seed::{
    damaged_code, edge_code, foreign_code, good_rule, large, matching_subject, nearly,
    random_subject, random_term, ForeignCode, Rng, Rule, Term, EDGES,
};

use crate::accepted::*;
use crate::parts::Parts;
use crate::{code_limits, matched, twins};

#[derive(Clone)]
pub struct Case {
    pub code: Vec<u32>,
    pub subject: Vec<u32>,
}

impl Case {
    pub fn new(code: Vec<u32>, subject: Vec<u32>) -> Case {
        Case { code, subject }
    }

    /// A rule's code.
    pub fn of_rule(left: &Term, right: &Term, subject: &Term) -> Case {
        Case::new(code_of(&Rule::of(left, right)), subject.words())
    }

    fn of_foreign(foreign: ForeignCode) -> Case {
        Case::new(foreign.code, foreign.subject)
    }
}

/// The code of an accepted rule.
pub fn code_of(rule: &Rule) -> Vec<u32> {
    let mut code = vec![0; CODE_WORDS];
    let answer = second::compile(&rule.left, &rule.right, &mut code);
    assert_eq!(answer.number, 0, "a rule that is accepted");
    code.truncate(answer.words as usize);
    code
}

// Compiled code, on instances of the left side.

/// A rule as they come.
pub fn compiled(rng: &mut Rng) -> Case {
    on_instance(rng, good_rule)
}

/// A rule with few nodes.
pub fn compiled_short(rng: &mut Rng) -> Case {
    on_instance(rng, small)
}

/// A rule with much of one thing.
pub fn compiled_much(rng: &mut Rng) -> Case {
    let rules =
        [same_name, sixteen_metavariables, repeated, under_abstractions, nested_bodies, to_itself];
    let rule = *rng.pick(&rules);
    on_instance(rng, rule)
}

/// A rule as large as can be.
pub fn compiled_large(rng: &mut Rng) -> Case {
    let rules = [large::wide, large::deep, large::checks, large::repeated, large::most_words];
    let rule = rng.pick(&rules)();
    let subject = instance(rng, &rule);
    Case::new(code_of(&rule), subject)
}

/// A rule whose subject has an index near 65,535.
pub fn compiled_high(rng: &mut Rng) -> Case {
    loop {
        let rule = small(rng);
        let subject = matching_subject(rng, &rule);
        if accepted(&subject) && highest(&subject) > INDEX - 100 {
            return Case::new(code_of(&rule), subject);
        }
    }
}

fn on_instance(rng: &mut Rng, rule: fn(&mut Rng) -> Rule) -> Case {
    let rule = rule(rng);
    let subject = instance(rng, &rule);
    Case::new(code_of(&rule), subject)
}

/// An accepted subject that a rule's left side matches, without indices near 65,535, where a
/// valuation may not be what the generator wanted.
fn instance(rng: &mut Rng, rule: &Rule) -> Vec<u32> {
    loop {
        let subject = matching_subject(rng, rule);
        if accepted(&subject) && highest(&subject) < INDEX - 200 {
            return subject;
        }
    }
}

/// Whether a good table is within the limits of a subject.
fn accepted(subject: &[u32]) -> bool {
    subject.len() <= NODE_WORDS * SUBJECT_NODES && Term::of_words(subject).depth() <= DEPTH
}

fn highest(subject: &[u32]) -> u32 {
    let firsts = subject.iter().step_by(NODE_WORDS);
    firsts.copied().filter(|first| *first <= INDEX).max().unwrap_or(0)
}

// Code that no compiler writes.

/// With a subject made along with it.
pub fn foreign(rng: &mut Rng) -> Case {
    Case::of_foreign(foreign_code(rng))
}

pub fn foreign_short(rng: &mut Rng) -> Case {
    const WORDS: usize = 60;
    loop {
        let case = foreign(rng);
        if case.code.len() <= WORDS {
            return case;
        }
    }
}

/// At an edge of the check.
pub fn edge(rng: &mut Rng) -> Case {
    Case::of_foreign(edge_code(rng.below(EDGES), false))
}

/// Past an edge of the check.
pub fn over_edge(rng: &mut Rng) -> Case {
    Case::of_foreign(edge_code(rng.below(EDGES), true))
}

/// The check's own cases that pass: at its limits, and those with a twin that is wrong.
pub fn check_case(rng: &mut Rng) -> Case {
    let parts = check_parts(rng);
    let code = rng.pick(&parts).anywhere(rng);
    let subject = matched::subject_of(rng, &code);
    Case::new(code, subject)
}

fn check_parts(rng: &mut Rng) -> Vec<Parts> {
    use second::limits::{ENTRIES, NESTING};
    match rng.below(14) {
        0 => code_limits::nesting(rng, NESTING),
        1 => code_limits::lambdas(rng, BINDERS),
        2 => code_limits::entries(rng, ENTRIES),
        3 => code_limits::depth(rng, BINDERS),
        4 => code_limits::listed_pairs(rng, ARGUMENTS),
        5 => code_limits::arguments(rng, ARGUMENTS),
        6 => code_limits::indices(rng, 1),
        7 => twins::guards(rng, false),
        8 => twins::covering(rng, false),
        9 => twins::differences(rng, false),
        10 => twins::entries(rng, false),
        11 => twins::same_depth(rng, false),
        12 => twins::pushimm_in_bodies(rng, false),
        _ => twins::bodies_in_bodies(rng, false),
    }
}

/// Foreign code on a subject that is made for it once more: other terms in the same places.
pub fn foreign_again(rng: &mut Rng) -> Case {
    let code = foreign_code(rng).code;
    let subject = matched::subject_of(rng, &code);
    Case::new(code, subject)
}

/// A CHECK of a variable that it lists or not, often the highest one, inside more abstractions or
/// not.
pub fn checked(rng: &mut Rng, listed: bool) -> Case {
    let depth = any_depth(rng);
    let count = rng.between(1, depth - 1);
    let order = rng.distinct(depth, depth);
    let (list, others) = order.split_at(count);
    let index = one_of(rng, if listed { list } else { others });
    let inside = rng.below(DEPTH - depth);
    let subject = Term::under(depth + inside, Term::Var(index + inside as u32));
    let code = [&vec![ISABST; depth], &check(list)[..], &[NEXT, CELL, 1, 0]].concat();
    Case::new(code, subject.words())
}

/// An entry that is one variable, often the highest one that can be keyed: compared with itself, and
/// replaced. Turned: the comparison wants another variable.
pub fn one_keyed(rng: &mut Rng, turned: bool) -> Case {
    let depth = any_depth(rng);
    let order = rng.distinct(depth, depth);
    let (keys, guard) = order.split_at(rng.between(1, ARGUMENTS.min(depth)));
    let index = one_of(rng, keys);
    let other = if turned { (index + 1) % depth as u32 } else { index };
    let pair = |key: &u32| [*key, if *key == index { other } else { *key }];
    let pairs: Vec<[u32; 2]> = keys.iter().map(pair).collect();
    let body = |(name, key): (usize, &u32)| (*key, vec![CELL, name as u32, 0]);
    let bodies: Vec<(u32, Vec<u32>)> = keys.iter().enumerate().map(body).collect();
    let mut code = [&vec![ISABST; depth], &check(guard)[..], &[SET]].concat();
    code.extend(eqi(0, difference(depth, depth), &pairs));
    code.push(NEXT);
    code.extend(pushi(0, difference(0, depth), &bodies));
    Case::new(code, Term::under(depth, Term::Var(index)).words())
}

/// Abstractions above a term, two or more, often as many as can be.
fn any_depth(rng: &mut Rng) -> usize {
    let any = rng.between(2, BINDERS);
    *rng.pick(&[any, any, BINDERS - 1, BINDERS])
}

/// Any of these, or the highest.
fn one_of(rng: &mut Rng, indices: &[u32]) -> u32 {
    let any = *rng.pick(indices);
    if rng.percent(50) {
        return any;
    }
    indices.iter().copied().max().unwrap_or(any)
}

// Changes.

/// The same with one change to the subject.
pub fn near(rng: &mut Rng, mut case: Case) -> Case {
    case.subject = nearly(rng, &case.subject);
    case
}

/// The same with one node of the subject's another leaf, mostly a variable: it stays accepted.
pub fn other_leaf(rng: &mut Rng, mut case: Case) -> Case {
    let mut subject = Term::of_words(&case.subject);
    let leaves: Vec<usize> = {
        let (mut node, mut leaves) = (0, Vec::new());
        subject.visit(0, &mut |term, _| {
            if term.arguments().is_empty() {
                leaves.push(node);
            }
            node += 1;
        });
        leaves
    };
    let leaf = subject.at_mut(*rng.pick(&leaves));
    *leaf = match leaf {
        Term::Var(index) if rng.percent(80) => Term::Var(*index ^ (1 << rng.below(3))),
        Term::Var(_) => Term::leaf(name(rng)),
        _ => Term::Var(rng.below(4) as u32),
    };
    case.subject = subject.words();
    case
}

/// The same on any accepted subject.
pub fn on_any(rng: &mut Rng, mut case: Case) -> Case {
    case.subject = random_subject(rng);
    case
}

/// The same with code that was changed somewhere; it may still pass.
pub fn damaged(rng: &mut Rng, mut case: Case) -> Case {
    case.code = damaged_code(rng, &case.code);
    case
}

/// The same with one operand of a match instruction changed, so that it still passes, or not.
pub fn other_operand(rng: &mut Rng, mut case: Case) -> Case {
    let words = case.code.len();
    let from = (0..words).find(|at| case.code[*at] > EQI).unwrap_or(words);
    let place = rng.below(from.max(1));
    case.code[place] = rng.below(4) as u32;
    case
}

/// A term of about so many nodes, most of its variables below `bound`.
pub fn term(rng: &mut Rng, bound: usize, nodes: usize) -> Term {
    let mut room = rng.between(1, nodes);
    random_term(rng, bound as u32, &mut room, 12)
}
