//! The documents' own examples. The numbers and words are written in the documents, or follow from
//! document 01's words on the translation, node by node; no program made them.

use linked::call::{difference, Answer};
use linked::compile::Compile;
use linked::engine::Engine;
use linked::numbers::{ARGUMENTS_NOT_DISTINCT_VARIABLES, DONE, FREE_VARIABLE};
use second::seed::{Rng, Rule, Term};
use Term::{Meta, Sym, Var};

struct Example {
    name: &'static str,
    rule: Rule,
    number: u32,
    code: &'static [u32],
}

/// Document 01: App is 1/2, Lam 2/1; other letters are symbols, Z a metavariable. D, B and M are
/// figure 1's, f and g its metavariables.
const APP: u32 = 1;
const LAM: u32 = 2;
const C: u32 = 3;
const F: u32 = 4;
const G: u32 = 5;
const D: u32 = 7;
const B: u32 = 8;
const M: u32 = 9;
const Z: u32 = 1;
const F_OF_FIGURE: u32 = 1;
const G_OF_FIGURE: u32 = 2;

fn abst(term: Term) -> Term {
    Term::abst(term)
}

fn example(
    name: &'static str,
    (left, right): (Term, Term),
    number: u32,
    code: &'static [u32],
) -> Example {
    Example { name, rule: Rule::of(&left, &right), number, code }
}

fn examples() -> Vec<Example> {
    vec![
        rule_b(),
        figure_1(),
        p5(),
        p7(),
        p9(),
        example("P11", (Sym(F, vec![Meta(Z, vec![Var(0)])]), Sym(C, vec![])), FREE_VARIABLE, &[]),
        example(
            "P12",
            (Sym(F, vec![abst(Meta(Z, vec![Sym(G, vec![Var(0)])]))]), Sym(C, vec![])),
            ARGUMENTS_NOT_DISTINCT_VARIABLES,
            &[],
        ),
    ]
}

/// Document 01 has its tables and its code.
fn rule_b() -> Example {
    let left = vec![65_537, 2, 65_538, 1, 196_608, 1, 131_073, 1, 0, 0, 131_074, 0];
    let right = vec![131_073, 1, 131_074, 0];
    let code = &[0, 1, 2, 0, 2, 1, 1, 3, 0, 4, 2, 3, 0, 4, 2, 13, 1, 63, 1, 0, 4, 13, 0, 64, 0];
    Example { name: "P1, rule B", rule: Rule { left, right }, number: DONE, code }
}

/// 004, section 6.4, the chain rule: D([x]App(f, g(x))) to M(D([x]g(x)), B(D(f), [x]g(x))).
fn figure_1() -> Example {
    let f = || Meta(F_OF_FIGURE, vec![]);
    let g = || Meta(G_OF_FIGURE, vec![Var(0)]);
    let left = Sym(D, vec![abst(Sym(APP, vec![f(), g()]))]);
    let inner = Sym(B, vec![Sym(D, vec![f()]), abst(g())]);
    let right = Sym(M, vec![Sym(D, vec![abst(g())]), inner]);
    #[rustfmt::skip]
    let code = &[
        0, D, 1,              // 1 IS (D,1)
        1,                    // 2 ISABST
        0, APP, 2,            // 3 IS (App,2)
        3, 1, 0,              // 4 CHECK [0]
        4,                    // 5 SET
        2,                    // 6 NEXT
        3, 0,                 // 7 CHECK []
        4,                    // 8 SET
        2,                    // 9 NEXT
        9,                    // 10 LAMBDA
        13, 0, 64, 1,         // 11 PUSHI(0,0,
            0, 2, 11, 0,      //      [(0, [PUSHVAR 0])])
        10,                   // 12 ADBMAL
        8, D, 1,              // 13 CELL(D,1)
        13, 1, 63, 0,         // 14 PUSHI(1,-1, [])
        8, D, 1,              // 15 CELL(D,1)
        9,                    // 16 LAMBDA
        13, 0, 64, 1,         // 17 PUSHI(0,0,
            0, 2, 11, 0,      //      [(0, [PUSHVAR 0])])
        10,                   // 18 ADBMAL
        8, B, 2,              // 19 CELL(B,2)
        8, M, 2,              // 20 CELL(M,2)
    ];
    example("figure 1", (left, right), DONE, code)
}

/// Lam([App(Z, 0)]) to Z.
fn p5() -> Example {
    let z = || Meta(Z, vec![]);
    let left = Sym(LAM, vec![abst(Sym(APP, vec![z(), Var(0)]))]);
    #[rustfmt::skip]
    let code = &[
        0, LAM, 1,            // IS
        1,                    // ISABST
        0, APP, 2,            // IS
        3, 1, 0, 4, 2,        // CHECK [0], SET, NEXT
        5, 0, 2,              // EQVAR 0, NEXT
        13, 0, 63, 0,         // PUSHI, one abstraction fewer
    ];
    example("P5", (left, z()), DONE, code)
}

/// F([[Z(1,0)]], [[Z(0,1)]]) to C.
fn p7() -> Example {
    let z = |first, second| abst(abst(Meta(Z, vec![Var(first), Var(second)])));
    #[rustfmt::skip]
    let code = &[
        0, F, 2,              // IS
        1, 1,                 // ISABST twice
        3, 0, 4, 2,           // CHECK [], SET, NEXT
        1, 1,                 // ISABST twice
        7, 0, 64, 2,          // EQI, as many abstractions,
            1, 0, 0, 1,       //      1 becomes 0, 0 becomes 1
        2,                    // NEXT
        8, C, 0,              // CELL
    ];
    example("P7", (Sym(F, vec![z(1, 0), z(0, 1)]), Sym(C, vec![])), DONE, code)
}

/// F(Z) to F([Z]).
fn p9() -> Example {
    let z = || Meta(Z, vec![]);
    #[rustfmt::skip]
    let code = &[
        0, F, 1,              // IS
        3, 0, 4, 2,           // CHECK [], SET, NEXT
        9,                    // LAMBDA
        13, 0, 65, 0,         // PUSHI, one abstraction more
        10,                   // ADBMAL
        8, F, 1,              // CELL
    ];
    example("P9", (Sym(F, vec![z()]), Sym(F, vec![abst(z())])), DONE, code)
}

#[test]
fn reed_compile_does_what_the_documents_say() {
    let mut engine = Engine::start().expect("the library can be reached");
    for Example { name, rule, number, code } in examples() {
        for room in [0, 1, 40] {
            let call = Compile::new(&mut Rng::new(0), &rule, code.len() + room);
            let expected: Answer = [number, code.len() as u32, 0, 0, 0];
            let mut made = [call.clone()];
            let answers = engine.make(&mut made).expect("the library comes back");
            let differs = difference((&made[0], answers[0]), (&call.with_code(code), expected));
            assert_eq!(differs, None, "{name}, {room} words of room");
        }
    }
}
