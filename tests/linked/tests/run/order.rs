//! Calls with several refusals due at once, so that the first one in document 01's order shows.

use linked::run::{Lent, Run};
use second::limits::{DEPTH, INDEX, NODE_WORDS, SUBJECT_NODES, WORKING_WORDS};
use second::seed::{Rng, Rule, Term};
use Term::{Meta, Sym, Var};

use crate::accepted::name;
use crate::cases::{code_of, Case};
use crate::spoilt::spoil;

/// What a refusal is due for.
#[derive(Clone, Copy, PartialEq)]
pub enum Defect {
    WorkingShort,
    CodeDoesNotPass,
    SubjectTooLong,
    SubjectNotGood,
    SubjectTooDeep,
    SubjectMetavariable,
    MatchFails,
    ResultTooLarge,
    ResultTooDeep,
    IndexTooHigh,
}

use Defect::*;

/// Document 01's order.
const ORDER: [Defect; 10] = [
    WorkingShort,
    CodeDoesNotPass,
    SubjectTooLong,
    SubjectNotGood,
    SubjectTooDeep,
    SubjectMetavariable,
    MatchFails,
    ResultTooLarge,
    ResultTooDeep,
    IndexTooHigh,
];

/// Sets of defects of which this is the first: it alone, with each later one, with several and with
/// all.
pub fn first_due(rng: &mut Rng, first: Defect) -> Vec<Vec<Defect>> {
    let later: Vec<Defect> = ORDER.into_iter().skip_while(|d| *d != first).skip(1).collect();
    let several = later.iter().copied().filter(|_| rng.percent(50)).collect();
    let mut sets = vec![Vec::new(), several, later.clone()];
    sets.extend(later.iter().map(|defect| vec![*defect]));
    sets.iter_mut().for_each(|set| set.push(first));
    sets
}

/// A run with these defects.
pub fn run(rng: &mut Rng, defects: &[Defect]) -> Run {
    let has = |defect| defects.contains(&defect);
    let case = defective(rng, defects);
    let working =
        if has(WorkingShort) { rng.below(WORKING_WORDS) } else { WORKING_WORDS + rng.below(3) };
    // The result's nodes: three abstractions over one to 63 others.
    let (least, most) = (NODE_WORDS * 4, NODE_WORDS * 70);
    let result = if has(ResultTooLarge) { rng.below(least) } else { most };
    Run::new(rng, &case.code, &case.subject, Lent { working, result, reach: most })
}

/// F(A, Z, X) to [[[Z]]], on a subject that it matches, but for these defects.
pub fn defective(rng: &mut Rng, defects: &[Defect]) -> Case {
    let has = |defect| defects.contains(&defect);
    const A: u32 = 10;
    let metavariable = |name| Meta(name, Vec::new());
    let left = Sym(1, vec![Term::leaf(A), metavariable(1), metavariable(2)]);
    let mut code = code_of(&Rule::of(&left, &Term::under(3, metavariable(1))));
    if has(CodeDoesNotPass) {
        match rng.below(3) {
            0 => code.push(rng.below(15) as u32),
            1 => code.truncate(rng.below(code.len())),
            _ => code[0] = 14 + rng.below(1_000) as u32,
        }
    }
    let index = if has(IndexTooHigh) { INDEX - rng.below(3) as u32 } else { rng.below(9) as u32 };
    let levels = if has(ResultTooDeep) { DEPTH - 3 } else { rng.below(DEPTH - 4) };
    let z = Term::chain(name(rng), levels, Var(index));
    let a = Term::leaf(if has(MatchFails) { A + 1 } else { A });
    let mut subject = Sym(1, vec![a, z, unwanted(rng, defects)]).words();
    if has(SubjectNotGood) {
        spoil(rng, &mut subject);
    }
    if has(SubjectTooLong) {
        let words = NODE_WORDS * SUBJECT_NODES + rng.between(1, 9);
        subject.resize(words, rng.below(2) as u32);
    }
    Case::new(code, subject)
}

/// What X stands for: nothing of it is in the result.
fn unwanted(rng: &mut Rng, defects: &[Defect]) -> Term {
    let mut arguments = vec![Term::leaf(name(rng))];
    if defects.contains(&SubjectTooDeep) {
        let levels = rng.between(DEPTH - 2, DEPTH + 9);
        arguments.push(Term::chain(name(rng), levels, Term::leaf(1)));
    }
    if defects.contains(&SubjectMetavariable) {
        arguments.insert(rng.below(2), Meta(name(rng), vec![Term::leaf(1); rng.below(3)]));
    }
    Sym(name(rng), arguments)
}
