//! `workload NAME TIMES`: one call on one case, so many times, for counting
//! instructions (README.md says how). The difference of two counts for TIMES
//! and TIMES + 1 is the cost of one call.

use std::hint::black_box;

use second::seed::{edge_code, file_of, Rule, Term};
use second::{check, compile, read, run, watch};

fn f(argument: Term) -> Term {
    Term::Sym(1, vec![argument])
}

fn z(arguments: Vec<Term>) -> Term {
    Term::Meta(7, arguments)
}

/// A balanced binary term with these leaves.
fn tree(levels: usize, leaf: &Term) -> Term {
    match levels {
        0 => leaf.clone(),
        _ => Term::Sym(2, vec![tree(levels - 1, leaf), tree(levels - 1, leaf)]),
    }
}

/// A rule and a subject that it matches.
fn case(name: &str) -> Option<(Rule, Vec<u32>)> {
    let unary = || f(Term::abst(z(vec![Term::Var(0)])));
    let (left, right, subject) = match name {
        // Rule B on document 01's subject.
        "beta" => {
            let app = |t, u| Term::Sym(1, vec![Term::Sym(2, vec![Term::abst(t)]), u]);
            let y = || Term::Meta(8, vec![]);
            (
                app(z(vec![Term::Var(0)]), y()),
                z(vec![y()]),
                app(tree(1, &Term::Var(0)), Term::Var(7)),
            )
        }
        // 2,047 nodes twice, no index moved.
        "copy" => {
            (f(z(vec![])), Term::Sym(3, vec![z(vec![]), z(vec![])]), f(tree(10, &Term::leaf(4))))
        }
        // 4,095 nodes, each variable moved.
        "move" => (f(z(vec![])), Term::abst(z(vec![])), f(tree(10, &Term::Var(9)))),
        // 1,024 keyed variables, each replaced by a body's term.
        "keyed" => {
            (unary(), Term::abst(z(vec![Term::Var(0)])), f(Term::abst(tree(10, &Term::Var(0)))))
        }
        // Two comparisons of 1,023 nodes, renamed.
        "compare" => {
            let part = || Term::abst(z(vec![Term::Var(0)]));
            let value = Term::abst(tree(9, &Term::Var(0)));
            let left = Term::Sym(3, vec![part(), part(), part()]);
            (left, Term::leaf(5), Term::Sym(3, vec![value.clone(), value.clone(), value]))
        }
        // A CHECK of 2,047 nodes.
        "forbid" => (f(Term::abst(z(vec![]))), z(vec![]), f(Term::abst(tree(10, &Term::Var(5))))),
        // Eleven bodies in one another, 4,095 nodes.
        "nested" => {
            let right = (0..11).fold(Term::leaf(3), |term, _| z(vec![term]));
            (unary(), right, f(Term::abst(tree(1, &Term::Var(0)))))
        }
        _ => return None,
    };
    Some((Rule::of(&left, &right), subject.words()))
}

fn main() {
    let mut arguments = std::env::args().skip(1);
    let name = arguments.next().expect("usage: workload NAME TIMES");
    let times: usize = arguments.next().and_then(|t| t.parse().ok()).expect("TIMES");
    let (call, of) = name.split_once('-').unwrap_or(("run", &name));
    let (rule, subject) = case(of).unwrap_or_else(|| case("beta").expect("rule B"));
    let mut code = vec![0; 4_096];
    let words = compile(&rule.left, &rule.right, &mut code).words as usize;
    let mut lent = code.clone();
    let code = &code[..words];
    let longest = edge_code(13, false).code;
    let file = file_of(&rule.left, &rule.right, &subject);
    let (mut work, mut result) = (vec![0; 8_192], vec![0; 8_192]);
    let (mut left, mut right, mut third) = (vec![0; 1_024], vec![0; 1_024], vec![0; 8_192]);
    for _ in 0..times {
        let number = match call {
            "run" => run(black_box(code), black_box(&subject), &mut work, &mut result).number,
            "compile" => compile(black_box(&rule.left), black_box(&rule.right), &mut lent).number,
            "check" if of == "longest" => check(black_box(&longest)),
            "check" => check(black_box(code)),
            "watch" => watch(black_box(code), black_box(&subject), u32::MAX).number,
            "read" => read(black_box(&file), &mut left, &mut right, &mut third).number,
            _ => panic!("no such call"),
        };
        assert_eq!(black_box(number), 0);
        black_box((&mut work, &mut result, &mut lent, &mut left, &mut right, &mut third));
    }
}
