//! Every short input over a few words, against the naive model, and demand 2
//! read literally: a run matches exactly when some valuation exists.

mod model;

use std::collections::BTreeSet;

use model::passing::passes;
use model::terms::{abst, accept_rule, accept_subject, encode, freevars, metasubst, size, Term};
use model::translation;
use second::{check, compile, run, watch};
use Term::{Meta, Sym, Var};

/// Every list over these words, up to this length, shown once.
fn every_list<T: Copy>(words: &[T], length: usize, see: &mut impl FnMut(&[T])) {
    fn longer<T: Copy>(words: &[T], left: usize, list: &mut Vec<T>, see: &mut impl FnMut(&[T])) {
        see(list);
        if left == 0 {
            return;
        }
        for word in words {
            list.push(*word);
            longer(words, left - 1, list, see);
            list.pop();
        }
    }
    longer(words, length, &mut Vec::new(), see);
}

#[test]
fn every_short_code() {
    let words: Vec<u32> = (0..14).chain([64]).collect();
    let mut passed = 0;
    every_list(&words, 6, &mut |code| {
        let expected = passes(code).is_some();
        assert_eq!(check(code) == 0, expected, "{code:?}");
        passed += u32::from(expected);
    });
    assert!(passed > 300, "{passed}");
}

/// Longer code, begun so that a build part with entries can follow.
#[test]
fn every_short_build_part() {
    let words = [0, 1, 3, 8, 9, 10, 11, 12, 13, 63, 64];
    for begun in [&[1, 4, 2][..], &[1, 3, 1, 0, 4, 2, 13, 0, 63], &[1, 4, 2, 13, 0, 63, 1, 0]] {
        let mut passed = 0;
        every_list(&words, 6, &mut |rest| {
            let code = [begun, rest].concat();
            let expected = passes(&code).is_some();
            assert_eq!(check(&code) == 0, expected, "{code:?}");
            passed += u32::from(expected);
        });
        assert!(passed > 0);
    }
}

#[test]
fn every_short_rule() {
    // Variables, symbols and metavariables with several counts, an abstraction.
    let nodes: [[u32; 2]; 10] = [
        [0, 0],
        [1, 0],
        [65_536, 0],
        [65_536, 1],
        [65_536, 2],
        [131_072, 0],
        [131_072, 1],
        [131_072, 2],
        [131_073, 0],
        [196_608, 1],
    ];
    let mut sides: Vec<Vec<u32>> = Vec::new();
    every_list(&nodes, 3, &mut |side| sides.push(side.concat()));
    let mut accepted = 0;
    for (number, left) in sides.iter().enumerate() {
        // Most pairs are refused for the left side alone; those are thinned out.
        let step = if accept_rule(left, &[65_536, 0]).is_ok() { 1 } else { 23 };
        for right in sides.iter().skip(number % step).step_by(step) {
            let mut code = [77; 64];
            let answer = compile(left, right, &mut code);
            match accept_rule(left, right) {
                Ok((l, r)) => {
                    let words = translation::encode(&translation::compile(&l, &r));
                    assert_eq!((answer.number, answer.words), (0, words.len() as u32));
                    assert_eq!(code[..words.len()], words);
                    accepted += 1;
                }
                Err(number) => assert_eq!((answer.number, answer.words), (number, 0)),
            }
        }
    }
    assert!(accepted > 400, "{accepted}");
}

/// Every term of exactly so many nodes over a few symbols and indices.
fn every_term(nodes: usize, indices: i64) -> Vec<Term> {
    if nodes == 1 {
        return (0..indices).map(Var).chain([Sym(5, vec![])]).collect();
    }
    let mut all = Vec::new();
    for t in every_term(nodes - 1, indices) {
        all.push(abst(t.clone()));
        all.push(Sym(5, vec![t]));
    }
    for first in 1..nodes - 1 {
        for t in every_term(first, indices) {
            let rest = every_term(nodes - 1 - first, indices);
            all.extend(rest.into_iter().map(|u| Sym(6, vec![t.clone(), u])));
        }
    }
    all
}

fn z(arguments: &[i64]) -> Term {
    Meta(1, arguments.iter().map(|x| Var(*x)).collect())
}

fn f(arguments: &[Term]) -> Term {
    Sym(9, arguments.to_vec())
}

/// Left sides with one metavariable, once and repeated, under abstractions.
fn left_sides() -> Vec<Term> {
    let two = |t| abst(abst(t));
    vec![
        f(&[z(&[])]),
        f(&[abst(z(&[]))]),
        f(&[abst(z(&[0]))]),
        f(&[two(z(&[]))]),
        f(&[two(z(&[0]))]),
        f(&[two(z(&[1]))]),
        f(&[two(z(&[1, 0]))]),
        f(&[Sym(6, vec![z(&[]), z(&[])])]),
        f(&[z(&[]), abst(z(&[]))]),
        f(&[abst(z(&[])), z(&[])]),
        f(&[abst(z(&[0])), abst(z(&[0]))]),
        f(&[two(z(&[0])), two(z(&[1]))]),
        f(&[two(z(&[0])), abst(z(&[0]))]),
        f(&[abst(z(&[0])), two(z(&[1]))]),
        f(&[two(z(&[1, 0])), two(z(&[0, 1]))]),
        f(&[two(z(&[0, 1])), two(z(&[0, 1]))]),
        f(&[abst(Sym(6, vec![z(&[]), Var(0)]))]),
    ]
}

const INDICES: i64 = 4;
const VALUE_NODES: usize = 3;

/// The left side under every valuation with small values, with that value.
fn instances(left: &Term) -> BTreeSet<Vec<u32>> {
    let count = model::terms::metas(left)[0].1;
    let mut all = BTreeSet::new();
    for nodes in 1..=VALUE_NODES {
        // One index more for each parameter, so that every free index occurs.
        for body in every_term(nodes, INDICES + count as i64) {
            let value = (0..count).fold(body, |t, _| abst(t));
            let instance = metasubst(&|_| value.clone(), left);
            all.insert(encode(&instance));
        }
    }
    all
}

/// Subjects with the left side's shape and every small term at its
/// metavariables, equal or not.
fn subjects(left: &Term) -> Vec<Term> {
    fn fill(t: &Term, small: &[Term]) -> Vec<Term> {
        match t {
            Meta(..) => small.to_vec(),
            Var(_) => vec![t.clone()],
            Abst(t) => fill(t, small).into_iter().map(abst).collect(),
            Sym(s, ts) => ts.iter().fold(vec![Sym(*s, vec![])], |heads, t| {
                let fills = fill(t, small);
                let with = |head: &Term, u: &Term| match head {
                    Sym(s, all) => Sym(*s, [all.clone(), vec![u.clone()]].concat()),
                    _ => unreachable!("a symbol is being filled"),
                };
                heads.iter().flat_map(|head| fills.iter().map(move |u| with(head, u))).collect()
            }),
        }
    }
    use Term::Abst;
    let most = if translation::compile(left, left).len() > 12 { 2 } else { VALUE_NODES };
    let small: Vec<Term> = (1..=most).flat_map(|nodes| every_term(nodes, INDICES)).collect();
    fill(left, &small)
}

#[test]
fn a_run_matches_exactly_when_a_valuation_exists() {
    let (mut matched, mut failed) = (0, 0);
    let mut work = vec![0; 8_192];
    for left in left_sides() {
        let instances = instances(&left);
        let right = encode(&Sym(7, vec![]));
        let mut code = vec![0; 4_096];
        let answer = compile(&encode(&left), &right, &mut code);
        let code = &code[..answer.words as usize];
        for subject in subjects(&left) {
            let words = encode(&subject);
            assert!(accept_subject(&words).is_ok() && size(&subject) < 20);
            let expected = if instances.contains(&words) { 0 } else { 12 };
            assert_eq!(run(code, &words, &mut work, &mut [0; 2]).number, expected, "{subject:?}");
            assert_eq!(watch(code, &words, 9_999).number, expected);
            match expected {
                0 => matched += 1,
                _ => failed += 1,
            }
        }
        // Every instance, with free variables or not, is matched.
        for words in &instances {
            let subject = accept_subject(words).expect("a subject");
            assert!(freevars(&subject).iter().all(|x| *x >= 0));
            assert_eq!(run(code, words, &mut work, &mut [0; 2]).number, 0, "{subject:?}");
        }
    }
    assert!(matched > 500 && failed > 2_000, "{matched} {failed}");
}
