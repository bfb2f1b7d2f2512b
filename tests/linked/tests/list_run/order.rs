//! Calls with several refusals due at once, so that the first one in the documents' order shows.

use linked::list_run::{Lent, ListRun};
use second::limits::{
    DEPTH, INDEX, LIST_RULES, LIST_WORKING_WORDS, NODE_WORDS, REWRITES, SUBJECT_NODES,
};
use second::seed::{Rng, Term};
use Term::{Meta, Sym, Var};

use crate::accepted::name;
use crate::cases::{rule, x, y, Case};
use crate::spoilt::spoil;
use crate::tables;

/// What a refusal is due for.
#[derive(Clone, Copy, PartialEq)]
pub enum Defect {
    ListTooLong,
    WorkingShort,
    RuleDoesNotPass,
    SubjectTooLong,
    SubjectNotGood,
    SubjectTooDeep,
    SubjectMetavariable,
    PlanTooLarge,
    PlanTooDeep,
    IndexTooHigh,
}

use Defect::*;

impl Defect {
    /// The order of document 02, request 1.
    pub const ALL: [Defect; 10] = [
        ListTooLong,
        WorkingShort,
        RuleDoesNotPass,
        SubjectTooLong,
        SubjectNotGood,
        SubjectTooDeep,
        SubjectMetavariable,
        PlanTooLarge,
        PlanTooDeep,
        IndexTooHigh,
    ];
}

/// Sets of defects of which this is the first: it alone, with each later one, with several and with
/// all.
pub fn first_due(rng: &mut Rng, first: Defect) -> Vec<Vec<Defect>> {
    let later: Vec<Defect> = Defect::ALL.into_iter().skip_while(|d| *d != first).skip(1).collect();
    let several = later.iter().copied().filter(|_| rng.percent(50)).collect();
    let mut sets = vec![Vec::new(), several, later.clone()];
    sets.extend(later.iter().map(|defect| vec![*defect]));
    sets.iter_mut().for_each(|set| set.push(first));
    sets
}

const MARK: u32 = 10;

/// A list run with these defects: F(Z, X) to [[[Z]]], after other rewrites.
pub fn call(rng: &mut Rng, defects: &[Defect]) -> ListRun {
    let has = |defect| defects.contains(&defect);
    let case = defective(rng, defects);
    let mut table = case.table();
    if has(RuleDoesNotPass) {
        table = spoilt_table(rng, &case);
    }
    let mut rewrites = case.rewrites;
    if has(ListTooLong) {
        match rng.below(3) {
            0 => rewrites = *rng.pick(&[REWRITES + 1, 1 << 16, u32::MAX]),
            1 => table.splice(0..0, [0].repeat(LIST_RULES + rng.below(3))).for_each(drop),
            _ => table.splice(0..0, [2, 8, 0].repeat(LIST_RULES)).for_each(drop),
        }
    }
    let short = rng.below(LIST_WORKING_WORDS);
    let working = if has(WorkingShort) { short } else { LIST_WORKING_WORDS + rng.below(3) };
    let most = NODE_WORDS * 200;
    // The last plan has at least these: its root, a mark, three abstractions and a variable.
    let least = NODE_WORDS * 6;
    let result = if has(PlanTooLarge) { rng.below(least) } else { most };
    ListRun::new(rng, &table, &case.subject, rewrites, Lent { working, result, reach: most })
}

/// One rule does not pass, has no words, or is cut.
fn spoilt_table(rng: &mut Rng, case: &Case) -> Vec<u32> {
    match rng.below(4) {
        0 => tables::no_words(rng, case),
        1 => tables::high_count(rng, case),
        2 => tables::last_cut(rng, case)[0].clone(),
        _ => tables::bad_rule(rng, case),
    }
}

fn defective(rng: &mut Rng, defects: &[Defect]) -> Case {
    let has = |defect| defects.contains(&defect);
    let codes = vec![
        rule(&Term::leaf(MARK), &Term::leaf(MARK + 1)),
        rule(&Sym(MARK, vec![x(), y()]), &Term::under(3, x())),
    ];
    let index = INDEX - rng.below(3) as u32 - if has(IndexTooHigh) { 0 } else { 3 };
    // Below the root, the three abstractions and the chain.
    let levels = if has(PlanTooDeep) { DEPTH - 4 } else { rng.below(DEPTH - 4) };
    let z = Term::chain(rng.between(20, 29) as u32, levels, Var(index));
    let marks = Sym(MARK + 2, vec![Term::leaf(MARK); rng.below(4)]);
    let plan = Sym(MARK + 3, vec![marks, Sym(MARK, vec![z, unwanted(rng, defects)])]);
    let mut subject = plan.words();
    if has(SubjectNotGood) {
        spoil(rng, &mut subject);
    }
    if has(SubjectTooLong) {
        let words = NODE_WORDS * SUBJECT_NODES + rng.between(1, 9);
        subject.resize(words, rng.below(2) as u32);
    }
    Case { codes, subject, rewrites: REWRITES - rng.below(3) as u32 }
}

/// What X stands for: nothing of it is in the last plan.
fn unwanted(rng: &mut Rng, defects: &[Defect]) -> Term {
    let mut arguments = vec![Term::leaf(rng.between(20, 29) as u32)];
    if defects.contains(&SubjectTooDeep) {
        let levels = rng.between(DEPTH - 3, DEPTH + 9);
        arguments.push(Term::chain(name(rng), levels, Term::leaf(1)));
    }
    if defects.contains(&SubjectMetavariable) {
        arguments.insert(rng.below(2), Meta(name(rng), vec![Term::leaf(1); rng.below(3)]));
    }
    Sym(rng.between(20, 29) as u32, arguments)
}
