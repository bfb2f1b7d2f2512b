//! Document 01's own examples of a run. Rules, subjects and results are written from the document by
//! hand; no program made them.

use linked::call::{difference, Answer};
use linked::engine::Engine;
use linked::numbers::{
    DONE, MATCH_FAILS, RESULT_INDEX_TOO_HIGH, RESULT_TOO_DEEP, RESULT_TOO_LARGE,
};
use linked::run::{Lent, Run, RESULT_WORDS};
use second::limits::WORKING_WORDS;
use second::seed::{Rng, Term};
use Term::{Meta, Sym, Var};

use crate::cases::Case;

struct Example {
    name: &'static str,
    case: Case,
    number: u32,
    result: Vec<u32>,
}

/// App is 1/2, Lam 2/1; other letters are symbols, Z a metavariable.
const APP: u32 = 1;
const LAM: u32 = 2;
const C: u32 = 3;
const F: u32 = 4;
const G: u32 = 5;
const P: u32 = 6;
const Z: u32 = 1;
/// Their first words, and an abstraction's.
const FIRST_LAM: u32 = 65_538;
const FIRST_C: u32 = 65_539;
const FIRST_F: u32 = 65_540;
const FIRST_G: u32 = 65_541;
const ABSTRACTION: u32 = 196_608;

fn abst(term: Term) -> Term {
    Term::abst(term)
}

fn z() -> Term {
    Meta(Z, Vec::new())
}

fn f(arguments: Vec<Term>) -> Term {
    Sym(F, arguments)
}

fn examples() -> Vec<Example> {
    let all = [rule_b(), forbidden(), compared(), highest(), nodes(), depth()];
    all.into_iter().flatten().collect()
}

/// Rule B's code as document 01 has it, on these subjects.
fn rule_b() -> Vec<Example> {
    let code = [0, 1, 2, 0, 2, 1, 1, 3, 0, 4, 2, 3, 0, 4, 2, 13, 1, 63, 1, 0, 4, 13, 0, 64, 0];
    let app = |function: Term| Sym(APP, vec![Sym(LAM, vec![abst(function)]), Var(7)]).words();
    let b = |name, subject, result: &[u32]| {
        let (case, result) = (Case::new(code.to_vec(), subject), result.to_vec());
        Example { name, case, number: DONE, result }
    };
    let subject_of_p2 = vec![65_537, 2, 65_538, 1, 196_608, 1, 65_539, 2, 0, 0, 0, 0, 7, 0];
    vec![
        b("P2", subject_of_p2, &[65_539, 2, 7, 0, 7, 0]),
        // Lam([8])
        b("P3", app(Sym(LAM, vec![abst(Var(1))])), &[FIRST_LAM, 1, ABSTRACTION, 1, 8, 0]),
        b("P4", app(Var(3)), &[2, 0]),
    ]
}

fn example(
    name: &'static str,
    [left, right, subject]: [Term; 3],
    number: u32,
    result: &[u32],
) -> Example {
    let case = Case::of_rule(&left, &right, &subject);
    Example { name, case, number, result: result.to_vec() }
}

/// P5, P6: Lam([App(Z, 0)]) to Z.
fn forbidden() -> Vec<Example> {
    let eta = |first| Sym(LAM, vec![abst(Sym(APP, vec![first, Var(0)]))]);
    vec![
        example("P5", [eta(z()), z(), eta(Var(5))], DONE, &[4, 0]),
        example("P6", [eta(z()), z(), eta(Var(0))], MATCH_FAILS, &[]),
    ]
}

/// P7, P8: F([[Z(1,0)]], [[Z(0,1)]]) to C.
fn compared() -> Vec<Example> {
    let two = |term| abst(abst(term));
    let z = |first, second| two(Meta(Z, vec![Var(first), Var(second)]));
    let p = |first, second| two(Sym(P, vec![Var(first), Var(second)]));
    let rule = || (f(vec![z(1, 0), z(0, 1)]), Sym(C, vec![]));
    let on = |second| [rule().0, rule().1, f(vec![p(1, 0), second])];
    vec![
        example("P7", on(p(0, 1)), DONE, &[FIRST_C, 0]),
        example("P8", on(p(1, 0)), MATCH_FAILS, &[]),
    ]
}

/// P9, P10: F(Z) to F([Z]).
fn highest() -> Vec<Example> {
    let on = |index| [f(vec![z()]), f(vec![abst(z())]), f(vec![Var(index)])];
    vec![
        example("P9", on(65_534), DONE, &[FIRST_F, 1, ABSTRACTION, 1, 65_535, 0]),
        example("P10", on(65_535), RESULT_INDEX_TOO_HIGH, &[]),
    ]
}

/// F(Z) to G(Z, Z), with Z of 2,047 and of 2,048 nodes.
fn nodes() -> Vec<Example> {
    let on = |nodes| {
        let copied = Term::of_nodes(P, nodes);
        let result = [&[FIRST_G, 2], &copied.words()[..], &copied.words()].concat();
        ([f(vec![z()]), Sym(G, vec![z(), z()]), f(vec![copied])], result)
    };
    let (at_limit, result) = on(2_047);
    assert_eq!(result.len(), 2 * 4_095);
    let (over, _) = on(2_048);
    vec![
        example("2,047 nodes twice", at_limit, DONE, &result),
        example("2,048 nodes twice", over, RESULT_TOO_LARGE, &[]),
    ]
}

/// F(Z) to F(F(Z)), on subjects of depth 63 and 64.
fn depth() -> Vec<Example> {
    let chain = |depth: usize| Term::chain(F, depth - 1, Sym(C, vec![]));
    let on = |depth| [f(vec![z()]), f(vec![f(vec![z()])]), chain(depth)];
    let result = [[FIRST_F, 1].repeat(63), vec![FIRST_C, 0]].concat();
    vec![
        example("depth 63", on(63), DONE, &result),
        example("depth 64", on(64), RESULT_TOO_DEEP, &[]),
    ]
}

#[test]
fn reed_run_does_what_document_01_says() {
    let mut engine = Engine::start().expect("the library can be reached");
    for Example { name, case, number, result } in examples() {
        for working in [WORKING_WORDS, WORKING_WORDS + 5] {
            let lent = Lent { working, ..Lent::result(RESULT_WORDS, 0) };
            let call = Run::new(&mut Rng::new(0), &case.code, &case.subject, lent);
            let expected: Answer = [number, result.len() as u32, 0, 0, 0];
            let mut made = [call.clone()];
            let answers = engine.make(&mut made).expect("the library comes back");
            let differs = difference((&made[0], answers[0]), (&call.done_with(&result), expected));
            assert_eq!(differs, None, "{name}, working table of {working} words");
        }
    }
}
