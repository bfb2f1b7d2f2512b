//! Rules with several refusals due at once, so that the first one in document 01's order shows.

use linked::compile::Compile;
use second::limits::{ARGUMENTS, DEPTH, METAVARIABLES, SIDE_NODES};
use second::seed::{Rng, Rule, Term};

use crate::accepted::{name, small};
use crate::lent::at_any_length;
use crate::refused::{bad_arguments, of_metavariables};
use crate::spoilt::spoil;

/// What a refusal is due for.
#[derive(Clone, Copy, PartialEq)]
pub enum Defect {
    LeftTooLong,
    LeftNotGood,
    LeftTooDeep,
    RightTooLong,
    RightNotGood,
    RightTooDeep,
    RootNoSymbol,
    FreeOnLeft,
    FreeOnRight,
    BadArguments,
    AbsentOnLeft,
    TooManyMetavariables,
    CodeTableShort,
}

use Defect::*;

/// Document 01's order; both free variables have one number.
const ORDER: [Defect; 13] = [
    LeftTooLong,
    LeftNotGood,
    LeftTooDeep,
    RightTooLong,
    RightNotGood,
    RightTooDeep,
    RootNoSymbol,
    FreeOnLeft,
    FreeOnRight,
    BadArguments,
    AbsentOnLeft,
    TooManyMetavariables,
    CodeTableShort,
];

/// Calls where the first refusal due is this one: it alone, with each later one, and with several.
pub fn first_due(rng: &mut Rng, first: Defect) -> Vec<Compile> {
    let later: Vec<Defect> = ORDER.into_iter().skip_while(|d| *d != first).skip(1).collect();
    let several = later.iter().copied().filter(|_| rng.percent(50)).collect();
    let mut sets = vec![Vec::new(), several];
    sets.extend(later.iter().map(|defect| vec![*defect]));
    let with_first = |mut set: Vec<Defect>| {
        set.push(first);
        call(rng, &set)
    };
    sets.into_iter().map(with_first).collect()
}

/// A call with these defects; one of them is the rule's.
fn call(rng: &mut Rng, defects: &[Defect]) -> Compile {
    let rule = defective(rng, defects);
    if defects.contains(&CodeTableShort) {
        return Compile::new(rng, &rule, 0);
    }
    at_any_length(rng, &rule)
}

/// An accepted rule, but for these defects.
fn defective(rng: &mut Rng, defects: &[Defect]) -> Rule {
    let has = |defect| defects.contains(&defect);
    let rule = small(rng);
    let (mut left, mut right) =
        (vec![Term::of_words(&rule.left)], vec![Term::of_words(&rule.right)]);
    for defect in defects {
        match defect {
            LeftTooLong => left.push(long(rng)),
            LeftTooDeep => left.push(deep(rng)),
            RightTooLong => right.push(long(rng)),
            RightTooDeep => right.push(deep(rng)),
            FreeOnLeft => left.push(free(rng)),
            FreeOnRight => right.push(free(rng)),
            BadArguments => left.push(bad_arguments(rng)),
            AbsentOnLeft => right.push(absent(rng)),
            TooManyMetavariables => left.push(too_many_metavariables(rng)),
            LeftNotGood | RightNotGood | RootNoSymbol | CodeTableShort => {}
        }
    }
    let left = Term::Sym(name(rng), left);
    let left = if has(RootNoSymbol) { no_symbol(rng, left) } else { left };
    let mut rule = Rule::of(&left, &Term::Sym(name(rng), right));
    if has(LeftNotGood) {
        spoil(rng, &mut rule.left);
    }
    if has(RightNotGood) {
        spoil(rng, &mut rule.right);
    }
    rule
}

/// More nodes than a side may have, also once some are taken away.
fn long(rng: &mut Rng) -> Term {
    Term::of_nodes(name(rng), SIDE_NODES + rng.between(4, 40))
}

/// Deeper than a side may be: symbols, or abstractions.
fn deep(rng: &mut Rng) -> Term {
    let levels = rng.between(DEPTH - 1, DEPTH + 9);
    if rng.percent(50) {
        return Term::chain(name(rng), levels, Term::leaf(1));
    }
    Term::under(levels, Term::Var(rng.below(levels) as u32))
}

/// A free variable, which stays free under one abstraction more.
fn free(rng: &mut Rng) -> Term {
    let above = rng.below(4);
    Term::under(above, Term::Var((above + rng.between(1, 70)) as u32))
}

/// A metavariable of a name that no other has.
fn absent(rng: &mut Rng) -> Term {
    const NOWHERE_ELSE: u32 = 44_444;
    Term::Meta(NOWHERE_ELSE, vec![Term::leaf(0); rng.below(ARGUMENTS + 1)])
}

/// More than sixteen metavariables of names that no others have.
fn too_many_metavariables(rng: &mut Rng) -> Term {
    const FIRST_NAME: u32 = 33_333;
    let count = rng.between(METAVARIABLES + 1, METAVARIABLES + 20) as u32;
    of_metavariables(FIRST_NAME..FIRST_NAME + count)
}

/// The term below an abstraction, or in a metavariable's argument.
fn no_symbol(rng: &mut Rng, term: Term) -> Term {
    if rng.percent(50) {
        return Term::abst(term);
    }
    Term::Meta(name(rng), vec![term])
}
