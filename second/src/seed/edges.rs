//! Code at the edges of the check.

use super::codes::ForeignCode;
use super::term::Term;
use crate::code::*;
use crate::limits::*;

/// How many kinds `edge_code` knows.
pub const EDGES: usize = 33;

/// Code at an edge of the check, kind 0 to `EDGES` - 1, with a subject that its
/// match part accepts; with `over` it is one step past and does not pass.
pub fn edge_code(kind: usize, over: bool) -> ForeignCode {
    let one = usize::from(over);
    let cell = [CELL, 3, 0];
    let leaf = Term::leaf(4);
    let keyed = Term::abst(Term::Var(0));
    let (code, subject) = match kind {
        0 => (join(&[&under(1, &[SET]), &bodies(NESTING + one, 0, &cell)]), keyed),
        1 => {
            let inside = bodies(1 + one, BINDERS as u32, &cell);
            (join(&[&under(1, &[SET]), &lambdas(BINDERS, &inside)]), keyed)
        }
        2 => (join(&[&[NEXT], &lambdas(BINDERS + one, &cell)]), leaf),
        3 => (join(&[&vec![SET; ENTRIES + one], &[NEXT], &cell]), leaf),
        4 => wide(CURRENT_TERMS + one),
        5 => (join(&[&under(BINDERS + one, &[]), &cell]), Term::under(BINDERS + one, leaf)),
        6 => {
            let list: Vec<u32> = (0..BINDERS + one).map(|index| (index % BINDERS) as u32).collect();
            let check = join(&[&[CHECK, list.len() as u32], &list]);
            (join(&[&under(BINDERS, &check), &cell]), Term::under(BINDERS, leaf))
        }
        7 => repeated_firsts(ARGUMENTS + one),
        8 => repeated_keys(ARGUMENTS + one),
        9 => (vec![IS, INDEX + one as u32, 0, CELL, INDEX, 0], Term::leaf(INDEX)),
        10 => (vec![IS, 1, 0, CELL, INDEX + one as u32, 0], Term::leaf(1)),
        11 => counts(ARGUMENTS + one, ARGUMENTS),
        12 => counts(ARGUMENTS, ARGUMENTS + one),
        13 => longest(over),
        14..=20 => return match_edge(kind, over),
        21..=26 => return build_edge(kind, over),
        _ => return later_edge(kind, over),
    };
    ForeignCode { code, subject: subject.words() }
}

/// Edges of the match part, of a few words each.
fn match_edge(kind: usize, over: bool) -> ForeignCode {
    let one = u32::from(over);
    let leaf = Term::leaf(4);
    let two = |inner: Term| Term::Sym(1, vec![Term::abst(inner.clone()), Term::abst(inner)]);
    let (code, subject) = match kind {
        // The second CHECK is the guard; over: it is empty.
        14 => {
            let lists = if over { [CHECK, 1, 0, CHECK, 0] } else { [CHECK, 0, CHECK, 1, 0] };
            (join(&[&[ISABST], &lists, &[SET, NEXT, PUSHI, 0, 63, 0]]), Term::abst(leaf))
        }
        // The second SET has no guard.
        15 => (vec![ISABST, CHECK, 1, 0, SET, SET, NEXT, PUSHI, 1 - one, 63, 0], Term::abst(leaf)),
        16 => (vec![ISABST, EQVAR, one, NEXT, CELL, 3, 0], Term::abst(Term::Var(0))),
        17 => (vec![ISABST, CHECK, 1, one, NEXT, CELL, 3, 0], Term::abst(leaf)),
        // EQIMM at another depth than its entry's.
        18 => {
            let step: &[u32] = if over { &[EQIMM, 0, NEXT] } else { &[ISABST, EQIMM, 0, NEXT] };
            (join(&[&[IS, 1, 2, ISABST, SET, NEXT], step, &[CELL, 3, 0]]), two(Term::Var(0)))
        }
        // An index below b is neither listed nor guarded.
        19 => {
            let pairs: &[u32] = if over { &[0] } else { &[1, 0, 0] };
            let match_part = [IS, 1, 2, ISABST, SET, NEXT, ISABST, EQI, 0, 64];
            (join(&[&match_part, pairs, &[NEXT, CELL, 3, 0]]), two(Term::Var(0)))
        }
        // An instruction without a current term.
        _ => (join(&[if over { &[NEXT, SET] } else { &[NEXT] }, &[CELL, 3, 0]]), leaf),
    };
    ForeignCode { code, subject: subject.words() }
}

/// Edges of the build part, of a few words each.
fn build_edge(kind: usize, over: bool) -> ForeignCode {
    let one = u32::from(over);
    let leaf = Term::leaf(4);
    let (code, subject) = match kind {
        // PUSHIMM with l = b, outermost or in a body.
        21 if over => {
            let mut code = vec![IS, 1, 2, SET, NEXT, ISABST, SET, NEXT];
            code.extend([PUSHI, 0, 63, 1, 0, 2, PUSHIMM, 1]);
            (code, Term::Sym(1, vec![leaf.clone(), Term::abst(leaf)]))
        }
        21 => (vec![ISABST, SET, NEXT, LAMBDA, PUSHIMM, 0, ADBMAL], Term::abst(Term::Var(0))),
        22 => (join(&[&[ISABST, SET, NEXT, PUSHI, 0, 63, 1, 0], body(over)]), Term::abst(leaf)),
        23 => (vec![NEXT, LAMBDA, PUSHVAR, one, ADBMAL], leaf),
        // A block cannot reach the terms outside it.
        24 => {
            let inside = [CELL, 2, one];
            (join(&[&[NEXT, CELL, 1, 0, LAMBDA], &inside, &[ADBMAL, CELL, 3, 2]]), leaf)
        }
        25 => (vec![SET, NEXT, PUSHI, one, 64, 0], leaf),
        _ => (vec![SET, NEXT, PUSHI, 0, 64 + one, 0], leaf),
    };
    ForeignCode { code, subject: subject.words() }
}

/// Further edges: nesting through each other, and indices of pairs and keys.
fn later_edge(kind: usize, over: bool) -> ForeignCode {
    let one = u32::from(over);
    let keyed = Term::abst(Term::Var(0));
    let both = Term::Sym(1, vec![keyed.clone(), keyed.clone()]);
    let compared = |words: &[u32]| {
        let begun = [IS, 1, 2, ISABST, SET, NEXT, ISABST];
        join(&[&begun, words, &[NEXT, CELL, 3, 0]])
    };
    let pushed = |words: &[u32]| join(&[&[ISABST, SET, NEXT, PUSHI, 0, 63], words]);
    let (code, subject) = match kind {
        // A block in so many bodies.
        27 => {
            let inside = lambdas(1, &[CELL, 3, 0]);
            (join(&[&under(1, &[SET]), &bodies(NESTING - 1 + over as usize, 0, &inside)]), keyed)
        }
        // A second index below the top's depth, a first one below b.
        28 => (compared(&[EQI, 0, 64, 1, 0, one]), both),
        29 => (compared(&[EQI, 0, 64, 2, 0, 0, one, 0]), both),
        // An entry that is there.
        30 => (compared(&[EQIMM, one]), both),
        // A key below b.
        31 => (pushed(&[2, 0, 3, CELL, 3, 0, one, 3, CELL, 4, 0]), keyed),
        // A body that fills its words.
        _ => (pushed(&[1, 0, 3 - one, CELL, 3, 0]), keyed),
    };
    ForeignCode { code, subject: subject.words() }
}

/// The length and words of a body; over: of none.
fn body(over: bool) -> &'static [u32] {
    if over {
        &[0]
    } else {
        &[3, CELL, 3, 0]
    }
}

fn join(parts: &[&[u32]]) -> Vec<u32> {
    parts.concat()
}

/// So many ISABST, these instructions, NEXT.
fn under(times: usize, instructions: &[u32]) -> Vec<u32> {
    join(&[&vec![ISABST; times], instructions, &[NEXT]])
}

/// A term's code inside so many blocks.
fn lambdas(times: usize, inside: &[u32]) -> Vec<u32> {
    join(&[&vec![LAMBDA; times], inside, &vec![ADBMAL; times]])
}

/// A term's code inside so many bodies, with l LAMBDAs open; entry 0 has b = 1.
fn bodies(times: usize, l: u32, inside: &[u32]) -> Vec<u32> {
    (0..times).fold(inside.to_vec(), |body, _| {
        join(&[&[PUSHI, 0, l + DIFFERENCE_BIAS - 1, 1, 0, body.len() as u32], &body])
    })
}

/// So many current terms at once.
fn wide(terms: usize) -> (Vec<u32>, Term) {
    let mut code = Vec::new();
    let mut counts = Vec::new();
    let mut current = 1;
    while current < terms {
        let count = (terms - current + 1).min(ARGUMENTS);
        code.extend([IS, 1, count as u32]);
        counts.push(count);
        current += count - 1;
    }
    code.extend(vec![NEXT; terms]);
    code.extend([CELL, 3, 0]);
    let subject = counts.iter().rev().fold(Term::leaf(0), |first, &count| {
        let mut arguments = vec![Term::leaf(0); count];
        arguments[0] = first;
        Term::Sym(1, arguments)
    });
    (code, subject)
}

/// An EQI with so many pairs for one index; only the first one holds.
fn repeated_firsts(pairs: usize) -> (Vec<u32>, Term) {
    let mut code = vec![IS, 1, 2, ISABST, SET, NEXT, ISABST, ISABST, EQI, 0, 65, pairs as u32];
    for pair in 0..pairs {
        code.extend([0, u32::from(pair == 0)]);
    }
    code.extend([NEXT, CELL, 3, 0]);
    let second = Term::under(2, Term::Var(1));
    (code, Term::Sym(1, vec![Term::abst(Term::Var(0)), second]))
}

/// A PUSHI with so many bodies for one key; only the first one runs.
fn repeated_keys(keys: usize) -> (Vec<u32>, Term) {
    let mut code = vec![ISABST, SET, NEXT, PUSHI, 0, 63, keys as u32];
    for key in 0..keys as u32 {
        code.extend([0, 3, CELL, 10 + key, 0]);
    }
    (code, Term::abst(Term::Sym(1, vec![Term::Var(0), Term::Var(0)])))
}

/// IS and CELL with these argument counts.
fn counts(is: usize, cell: usize) -> (Vec<u32>, Term) {
    let mut code = vec![IS, 1, is as u32];
    code.extend(vec![NEXT; is]);
    for number in 0..cell as u32 {
        code.extend([CELL, number, 0]);
    }
    code.extend([CELL, 3, cell as u32]);
    (code, Term::Sym(1, vec![Term::leaf(0); is]))
}

/// The longest code, or one word more.
fn longest(over: bool) -> (Vec<u32>, Term) {
    let mut code = if over { vec![SET] } else { Vec::new() };
    while code.len() + 4 < CODE_WORDS {
        code.extend([CHECK, 0]);
    }
    code.extend([NEXT, CELL, 3, 0]);
    (code, Term::leaf(4))
}
