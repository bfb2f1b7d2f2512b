//! Code with a subject, for the run and watch.

use linked::code::*;
use linked::numbers::*;
use second::limits::{
    ARGUMENTS, BINDERS, DEPTH, INDEX, NESTING, NODE_WORDS, RESULT_NODES, SUBJECT_NODES,
    WORKING_WORDS,
};
use second::seed::{Rule, Term};
use Term::{Meta, Sym, Var};

use crate::compile::{code_of, rule_of};

/// All that a run is lent, and the number that it gives.
pub struct Plan {
    pub code: Vec<u32>,
    pub subject: Vec<u32>,
    pub working_words: usize,
    pub result_words: usize,
    pub number: u32,
}

impl Plan {
    pub fn named(name: &str) -> Plan {
        let (code, subject) = match name.rsplit_once('-').map(|(name, size)| (name, size.parse())) {
            Some((family, Ok(nodes))) if !name.starts_with("refused") => grown(family, nodes),
            _ => single(name),
        };
        let mut plan = Plan {
            code,
            subject,
            working_words: WORKING_WORDS,
            result_words: NODE_WORDS * RESULT_NODES,
            number: number_of(name),
        };
        if plan.number == WORKING_TABLE_SHORT {
            plan.working_words -= 1;
        }
        plan
    }

    /// The subject's nodes and the result's; those of a refused result are not counted.
    pub fn nodes(&self) -> usize {
        let (mut working, mut result) = (vec![0; self.working_words], vec![0; self.result_words]);
        let answer = second::run(&self.code, &self.subject, &mut working, &mut result);
        (self.subject.len() + answer.words as usize) / NODE_WORDS
    }
}

fn number_of(name: &str) -> u32 {
    match name.split('-').collect::<Vec<_>>()[..] {
        ["refused", number, ..] => number.parse().expect("the number of a refusal"),
        _ => DONE,
    }
}

/// A metavariable without arguments, and one with the nearest variable below an abstraction.
fn z() -> Term {
    Meta(7, Vec::new())
}

fn keyed() -> Term {
    Term::abst(Meta(7, vec![Var(0)]))
}

fn f(argument: Term) -> Term {
    Sym(1, vec![argument])
}

fn of_rule(left: &Term, right: &Term, subject: &Term) -> (Vec<u32>, Vec<u32>) {
    (code_of(&Rule::of(left, right)), subject.words())
}

/// A tree of so many nodes, each inner one with two arguments, but for one where that does not come
/// out; all leaves are the same.
pub fn tree(nodes: usize, leaf: &Term) -> Term {
    match nodes {
        1 => leaf.clone(),
        2 => Sym(2, vec![leaf.clone()]),
        _ => {
            let first = (nodes - 1) / 2;
            Sym(2, vec![tree(first, leaf), tree(nodes - 1 - first, leaf)])
        }
    }
}

/// Plans of about so many nodes, most of them in one thing.
fn grown(family: &str, nodes: usize) -> (Vec<u32>, Vec<u32>) {
    match family {
        // Rule B at the root; half of the function's nodes are its variable.
        "beta" => {
            let body = tree(nodes - 4, &Var(0));
            let subject = Sym(1, vec![Sym(2, vec![Term::abst(body)]), Var(7)]);
            (code_of(&rule_of("beta")), subject.words())
        }
        // As it is.
        "same" => (vec![SET, NEXT, PUSHIMM, 0], tree(nodes, &Var(9)).words()),
        // Two copies, no index moved.
        "copy" => {
            let twice = Sym(3, vec![z(), z()]);
            of_rule(&f(z()), &twice, &f(tree(nodes - 1, &Term::leaf(4))))
        }
        // Each variable moved by one.
        "move" => of_rule(&f(z()), &Term::abst(z()), &f(tree(nodes - 1, &Var(9)))),
        // Each variable replaced by what a body makes.
        "keyed" => {
            let right = Term::abst(Meta(7, vec![Var(0)]));
            of_rule(&f(keyed()), &right, &f(Term::abst(tree(nodes - 2, &Var(0)))))
        }
        // A third compared with each of the two others, renamed.
        "compare" => {
            let part = Term::abst(tree(nodes / 3 - 1, &Var(0)));
            let of_three = |part: Term| Sym(3, vec![part.clone(), part.clone(), part]);
            of_rule(&of_three(keyed()), &Term::leaf(5), &of_three(part))
        }
        // Each variable moved by one; as deep as can be with so many nodes.
        "comb" => {
            let levels = DEPTH - 4;
            let teeth = nodes / ARGUMENTS / levels - 1;
            let tooth = |below: Term, _| {
                let mut arguments = vec![Var(9); teeth];
                arguments.push(below);
                Sym(2, arguments)
            };
            let comb = (0..levels).fold(Var(9), tooth);
            of_rule(&f(z()), &Term::abst(z()), &f(Sym(3, vec![comb; ARGUMENTS])))
        }
        // One index forbidden.
        "forbid" => of_rule(&f(Term::abst(z())), &z(), &f(Term::abst(tree(nodes - 2, &Var(5))))),
        _ => panic!("no such plan: {family}"),
    }
}

fn single(name: &str) -> (Vec<u32>, Vec<u32>) {
    match name {
        "small" => (code_of(&rule_of("small")), f(Term::leaf(2)).words()),
        "beta" => {
            let p = Sym(3, vec![Var(0), Var(0)]);
            let subject = Sym(1, vec![Sym(2, vec![Term::abst(p)]), Var(7)]);
            (code_of(&rule_of("beta")), subject.words())
        }
        // The longest code, and the left side itself as the subject, metavariables made symbols.
        "most" => {
            let rule = rule_of("most");
            (code_of(&rule), without_metavariables(&rule.left))
        }
        // As deep as a result may be.
        "deep" => {
            let chain = Term::chain(1, DEPTH - 3, Term::leaf(2));
            of_rule(&f(z()), &f(f(z())), &f(chain))
        }
        // Compared and moved under as many abstractions as can be.
        "abstractions" => {
            let left = Sym(1, vec![Term::abst(z()), Term::abst(z())]);
            let part = Term::under(DEPTH - 2, Var(99));
            of_rule(&left, &Term::abst(z()), &Sym(1, vec![part.clone(), part]))
        }
        // Bodies in one another, as many as may be; each entry is its variable.
        "bodies" => in_bodies(NESTING, &Term::abst(Var(0))),
        // The same where each entry adds a symbol, or an abstraction, down to depth 64.
        "bodies-symbols" => in_bodies(NESTING - 1, &Term::abst(Sym(2, vec![Var(0)]))),
        // The same where the symbol is the body's: a level of bodies and one of terms in turn, to depth 64.
        "bodies-cells" => in_cells(),
        "bodies-abstractions" => in_bodies(NESTING - 1, &Term::abst(Term::abst(Var(1)))),
        // Blocks around a body, and blocks and bodies in turn.
        "blocks" => in_levels(&[&[Level::Block; BINDERS][..], &[Level::Body]].concat()),
        "both" => in_levels(&[Level::Block, Level::Body].repeat(NESTING / 2)),
        // The same where each entry has two variables, as far as the result has room.
        "doubled" => in_bodies(11, &Term::abst(Sym(2, vec![Var(0), Var(0)]))),
        // 64 levels of bodies, the innermost of which pushes an entry 60 deep.
        "bodies-deep" => bodies_over_deep(),
        _ => refused(name),
    }
}

/// Bodies in one another over a subject that is one entry.
fn in_bodies(levels: usize, subject: &Term) -> (Vec<u32>, Vec<u32>) {
    let bodies = nested(&vec![Level::Body; levels], &[CELL, 1, 0]);
    ([&[ISABST, SET, NEXT], &bodies[..]].concat(), subject.words())
}

/// A leaf in these levels, each entry its variable.
fn in_levels(levels: &[Level]) -> (Vec<u32>, Vec<u32>) {
    let building = nested(levels, &[CELL, 1, 0]);
    ([&[ISABST, SET, NEXT], &building[..]].concat(), Term::abst(Var(0)).words())
}

fn in_cells() -> (Vec<u32>, Vec<u32>) {
    let body =
        |code: Vec<u32>, _| [&pushi(0, difference(0, 1), &[(0, code)])[..], &[CELL, 2, 1]].concat();
    let building = (0..NESTING - 1).fold(vec![CELL, 1, 0], body);
    ([&[ISABST, SET, NEXT], &building[..]].concat(), Term::abst(Var(0)).words())
}

fn bodies_over_deep() -> (Vec<u32>, Vec<u32>) {
    let matching = [IS, 1, 2, SET, NEXT, ISABST, SET, NEXT];
    let bodies = nested(&[Level::Body; NESTING], &pushi(1, difference(0, 0), &[]));
    let deep = Term::chain(2, DEPTH - 4, Var(3));
    let subject = Sym(1, vec![deep, Term::abst(Var(0))]);
    ([&matching[..], &bodies].concat(), subject.words())
}

fn refused(name: &str) -> (Vec<u32>, Vec<u32>) {
    let largest = tree(SUBJECT_NODES, &Var(9)).words();
    let same = vec![SET, NEXT, PUSHIMM, 0];
    match name {
        "refused-16" => (same, largest),
        "refused-11" => (vec![NEXT, CELL, 1], largest),
        "refused-2" => (same, [&largest[..], &[0]].concat()),
        "refused-1" => (same, largest[..largest.len() - NODE_WORDS].to_vec()),
        "refused-3" => (same, Term::chain(1, DEPTH, Term::leaf(2)).words()),
        "refused-4" => {
            let last = largest.len() - NODE_WORDS;
            (same, [&largest[..last], &[2 << 16, 0]].concat())
        }
        "refused-12-first" => (vec![IS, 9, 2, NEXT, NEXT, CELL, 1, 0], largest),
        // Two halves that differ in the last node.
        "refused-12-last" => {
            let half = tree(SUBJECT_NODES / 2 - 1, &Var(9));
            let mut subject = Sym(1, vec![half.clone(), half]).words();
            let last = subject.len() - NODE_WORDS;
            subject[last] = 8;
            let left = Sym(1, vec![z(), z()]);
            (code_of(&Rule::of(&left, &z())), subject)
        }
        // One node too many, counted last.
        "refused-13" => ([&same[..], &[CELL, 1, 1]].concat(), largest),
        // Two to the power of 64.
        "refused-13-bodies" => in_bodies(NESTING, &Term::abst(Sym(2, vec![Var(0), Var(0)]))),
        "refused-14" => of_rule(&f(z()), &f(f(z())), &f(Term::chain(1, DEPTH - 2, Term::leaf(2)))),
        "refused-14-bodies" => in_bodies(NESTING, &Term::abst(Term::chain(1, DEPTH - 2, Var(0)))),
        "refused-15" => {
            let mut subject = f(tree(SUBJECT_NODES - 2, &Var(9))).words();
            let last = subject.len() - NODE_WORDS;
            subject[last] = INDEX;
            (code_of(&Rule::of(&f(z()), &Term::abst(z()))), subject)
        }
        _ => panic!("no such plan: {name}"),
    }
}

/// A side as a subject that it matches: for each metavariable the symbol of its name.
fn without_metavariables(side: &[u32]) -> Vec<u32> {
    fn value(term: &Term) -> Term {
        let all = |terms: &[Term]| terms.iter().map(value).collect();
        match term {
            Var(index) => Var(*index),
            Sym(name, terms) => Sym(*name, all(terms)),
            Meta(name, _) => Term::leaf(*name),
            Term::Abst(body) => Term::abst(value(body)),
        }
    }
    value(&Term::of_words(side)).words()
}
