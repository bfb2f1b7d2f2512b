//! The examples of document 01 and figure 1 of 004, with values from the documents.

mod model;

use model::terms::{abst, encode, Term};
use second::seed::file_of;
use second::{check, compile, plan_apply, run, Answer};
use Term::{Meta, Sym, Var};

const LEFT_B: [u32; 12] = [65_537, 2, 65_538, 1, 196_608, 1, 131_073, 1, 0, 0, 131_074, 0];
const RIGHT_B: [u32; 4] = [131_073, 1, 131_074, 0];
const CODE_B: [u32; 25] =
    [0, 1, 2, 0, 2, 1, 1, 3, 0, 4, 2, 3, 0, 4, 2, 13, 1, 63, 1, 0, 4, 13, 0, 64, 0];
const SUBJECT: [u32; 14] = [65_537, 2, 65_538, 1, 196_608, 1, 65_539, 2, 0, 0, 0, 0, 7, 0];

fn app(f: Term, x: Term) -> Term {
    Sym(1, vec![f, x])
}
fn lam(t: Term) -> Term {
    Sym(2, vec![t])
}
fn f(ts: &[Term]) -> Term {
    Sym(70, ts.to_vec())
}
fn g(ts: &[Term]) -> Term {
    Sym(71, ts.to_vec())
}
fn p(x: i64, y: i64) -> Term {
    Sym(80, vec![Var(x), Var(y)])
}
fn z(ts: &[Term]) -> Term {
    Meta(90, ts.to_vec())
}
fn c() -> Term {
    Sym(67, vec![])
}
fn abst2(t: Term) -> Term {
    abst(abst(t))
}

fn compiled(left: &Term, right: &Term) -> Result<Vec<u32>, u32> {
    let mut code = vec![0; 4_096];
    let answer = compile(&encode(left), &encode(right), &mut code);
    if answer.number != 0 {
        assert_eq!((answer.words, code.iter().max()), (0, Some(&0)));
        return Err(answer.number);
    }
    code.truncate(answer.words as usize);
    Ok(code)
}

fn applied(left: &Term, right: &Term, subject: &Term) -> Result<Vec<u32>, u32> {
    let code = compiled(left, right)?;
    assert_eq!(check(&code), 0);
    let (mut work, mut result) = (vec![9; 8_192], vec![0; 8_192]);
    let answer = run(&code, &encode(subject), &mut work, &mut result);
    assert!(work.iter().all(|word| *word == 0));
    if answer.number != 0 {
        return Err(answer.number);
    }
    result.truncate(answer.words as usize);
    Ok(result)
}

fn b() -> (Term, Term) {
    let left = app(lam(abst(Meta(1, vec![Var(0)]))), Meta(2, vec![]));
    (left, Meta(1, vec![Meta(2, vec![])]))
}

fn b_on(subject: &Term) -> Result<Vec<u32>, u32> {
    let (left, right) = b();
    assert_eq!((encode(&left), encode(&right)), (LEFT_B.to_vec(), RIGHT_B.to_vec()));
    applied(&left, &right, subject)
}

#[test]
fn p1_code_of_rule_b() {
    let mut code = [5; 27];
    assert_eq!(compile(&LEFT_B, &RIGHT_B, &mut code), Answer { number: 0, words: 25 });
    assert_eq!(code[..25], CODE_B);
    assert_eq!(code[25..], [5, 5]);
}

#[test]
fn p2_and_the_programs_line() {
    let subject = app(lam(abst(Sym(3, vec![Var(0), Var(0)]))), Var(7));
    assert_eq!(encode(&subject), SUBJECT);
    assert_eq!(b_on(&subject), Ok(vec![65_539, 2, 7, 0, 7, 0]));
    let line = plan_apply(&file_of(&LEFT_B, &RIGHT_B, &SUBJECT));
    assert_eq!(line, b"0 6 65539 2 7 0 7 0\n");
}

#[test]
fn p3_lifts_by_the_abstractions_crossed_inside_the_entry() {
    let subject = app(lam(abst(lam(abst(Var(1))))), Var(7));
    assert_eq!(b_on(&subject), Ok(encode(&lam(abst(Var(8))))));
}

#[test]
fn p4_lowers_behind_the_binding() {
    assert_eq!(b_on(&app(lam(abst(Var(3))), Var(7))), Ok(encode(&Var(2))));
}

#[test]
fn p5_p6_checks_forbidden_indices() {
    let left = lam(abst(app(z(&[]), Var(0))));
    let on = |t| applied(&left, &z(&[]), &lam(abst(app(t, Var(0)))));
    assert_eq!(on(Var(5)), Ok(encode(&Var(4))));
    assert_eq!(on(Var(0)), Err(12));
}

#[test]
fn p7_p8_compares_later_occurrences_renamed() {
    let left = f(&[abst2(z(&[Var(1), Var(0)])), abst2(z(&[Var(0), Var(1)]))]);
    let on = |second| applied(&left, &c(), &f(&[abst2(p(1, 0)), abst2(second)]));
    assert_eq!(on(p(0, 1)), Ok(encode(&c())));
    assert_eq!(on(p(1, 0)), Err(12));
}

#[test]
fn p9_p10_highest_index() {
    let on = |x| applied(&f(&[z(&[])]), &f(&[abst(z(&[]))]), &f(&[Var(x)]));
    assert_eq!(on(65_534), Ok(encode(&f(&[abst(Var(65_535))]))));
    assert_eq!(on(65_535), Err(15));
}

#[test]
fn p11_p12_refused_rules() {
    assert_eq!(compiled(&f(&[z(&[Var(0)])]), &c()), Err(6));
    assert_eq!(compiled(&f(&[abst(z(&[g(&[Var(0)])]))]), &c()), Err(7));
}

/// A term of so many nodes: a comb of unary and binary symbols, not deep.
fn of_nodes(nodes: usize) -> Term {
    match nodes {
        1 => c(),
        2 => g(&[c()]),
        _ => g(&[of_nodes((nodes - 1) / 2), of_nodes(nodes - 1 - (nodes - 1) / 2)]),
    }
}

#[test]
fn results_of_4095_and_4097_nodes() {
    let on = |nodes| applied(&f(&[z(&[])]), &g(&[z(&[]), z(&[])]), &f(&[of_nodes(nodes)]));
    assert_eq!(on(2_047).map(|words| words.len()), Ok(2 * 4_095));
    assert_eq!(on(2_048), Err(13));
}

#[test]
fn results_of_depth_64_and_65() {
    let subject = |depth: usize| (2..depth).fold(c(), |t, _| f(&[t]));
    let on = |depth| applied(&f(&[z(&[])]), &f(&[f(&[z(&[])])]), &f(&[subject(depth)]));
    assert_eq!(on(63).map(|words| words.len()), Ok(2 * 64));
    assert_eq!(on(64), Err(14));
}

#[test]
fn pushimm_stands_in_no_body() {
    // Rule B with PUSHIMM for the inner PUSHI: the offset is not zero there.
    let mut code = CODE_B[..19].to_vec();
    code.extend([0, 2, 12, 0]);
    assert_eq!(check(&CODE_B), 0);
    assert_eq!(check(&code), 11);
    // Outermost it stands where l = b.
    assert_eq!(check(&[4, 2, 12, 0]), 0);
    assert_eq!(check(&[4, 2, 9, 12, 0, 10]), 11);
}

#[test]
fn locations_count_from_the_last_metavariable() {
    let left = f(&[Meta(1, vec![]), Meta(2, vec![]), Meta(3, vec![])]);
    let right = f(&[Meta(1, vec![]), Meta(2, vec![]), Meta(3, vec![])]);
    let code = compiled(&left, &right).unwrap();
    assert_eq!(code[15..], [13, 2, 64, 0, 13, 1, 64, 0, 13, 0, 64, 0, 8, 70, 3]);
    assert_eq!(
        applied(&left, &right, &f(&[Var(1), Var(2), Var(3)])),
        Ok(encode(&f(&[Var(1), Var(2), Var(3)])))
    );
}

/// EQI's entry is the location less the number of SETs still to come.
#[test]
fn later_occurrences_before_the_last_set() {
    let left = f(&[Meta(1, vec![]), Meta(2, vec![]), Meta(1, vec![]), Meta(3, vec![])]);
    let code = compiled(&left, &c()).unwrap();
    assert_eq!(code[11..], [7, 1, 64, 0, 2, 3, 0, 4, 2, 8, 67, 0]);
}

#[test]
fn figure_1() {
    let (d, b, app, m) = (100, 101, 102, 103);
    let (ff, gg) = (Meta(1, vec![]), |t| Meta(2, vec![t]));
    let deriv = |t| Sym(d, vec![t]);
    let left = deriv(abst(Sym(app, vec![ff.clone(), gg(Var(0))])));
    let gx = || abst(gg(Var(0)));
    let right = Sym(m, vec![deriv(gx()), Sym(b, vec![deriv(ff), gx()])]);
    let expected: Vec<u32> = [
        vec![0, d, 1],
        vec![1],
        vec![0, app, 2],
        vec![3, 1, 0],
        vec![4],
        vec![2],
        vec![3, 0],
        vec![4],
        vec![2],
        vec![9],
        vec![13, 0, 64, 1, 0, 2, 11, 0],
        vec![10],
        vec![8, d, 1],
        vec![13, 1, 63, 0],
        vec![8, d, 1],
        vec![9],
        vec![13, 0, 64, 1, 0, 2, 11, 0],
        vec![10],
        vec![8, b, 2],
        vec![8, m, 2],
    ]
    .concat();
    assert_eq!(compiled(&left, &right), Ok(expected));
    // The chain rule applied: D([x] App(h, x)) with h free.
    let subject = deriv(abst(Sym(app, vec![Var(6), Var(0)])));
    let identity = || abst(Var(0));
    let derived = Sym(m, vec![deriv(identity()), Sym(b, vec![deriv(Var(5)), identity()])]);
    assert_eq!(applied(&left, &right, &subject), Ok(encode(&derived)));
}

/// The optimised figure 1 (004 section 7): its two PUSHI 0 become PUSHIMM 0.
#[test]
fn figure_1_with_the_cheap_instruction() {
    let code = [
        0, 100, 1, 1, 0, 102, 2, 3, 1, 0, 4, 2, 3, 0, 4, 2, 9, 12, 0, 10, 8, 100, 1, 13, 1, 63, 0,
        8, 100, 1, 9, 12, 0, 10, 8, 101, 2, 8, 103, 2,
    ];
    assert_eq!(check(&code), 0);
    let subject = encode(&Sym(100, vec![abst(Sym(102, vec![Var(6), Var(0)]))]));
    let (mut work, mut result) = (vec![0; 8_192], vec![0; 8_192]);
    let answer = run(&code, &subject, &mut work, &mut result);
    let d = |t| Sym(100, vec![t]);
    let derived = Sym(103, vec![d(abst(Var(0))), Sym(101, vec![d(Var(5)), abst(Var(0))])]);
    assert_eq!(answer.number, 0);
    assert_eq!(result[..answer.words as usize], encode(&derived));
}
