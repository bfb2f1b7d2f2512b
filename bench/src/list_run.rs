//! Lists of rules to run over a plan.

use std::hint::black_box;

use linked::list_run::table_of;
use linked::numbers::*;
use second::limits::{
    ARGUMENTS, DEPTH, LIST_RULES, LIST_WORKING_WORDS, NODE_WORDS, RESULT_NODES, REWRITES,
    SUBJECT_NODES,
};
use second::seed::{Rule, Term};
use second::ListAnswer;
use Term::{Meta, Sym, Var};

use crate::compile::{code_of, rule_of};
use crate::plans::{tree, Plan};
use crate::{proved, Case, Side};

/// All that a list run is lent, and what it gives.
pub struct LentList {
    rules: Vec<u32>,
    subject: Vec<u32>,
    rewrites: u32,
    working: Vec<u32>,
    result: Vec<u32>,
    answer: ListAnswer,
}

impl Case for LentList {
    fn named(name: &str) -> LentList {
        let load = load(name);
        let mut list = LentList {
            rules: table_of(&load.codes),
            subject: load.plan.words(),
            rewrites: load.rewrites,
            working: vec![0; LIST_WORKING_WORDS],
            result: vec![0; NODE_WORDS * RESULT_NODES],
            answer: ListAnswer { number: DONE, words: 0, rewrites: 0, normal: 0 },
        };
        if name == "refused-16" {
            list.working.pop();
        }
        let LentList { rules, subject, rewrites, working, result, .. } = &mut list;
        list.answer = second::list_run(rules, subject, *rewrites, working, result);
        let made = (list.answer.number, list.answer.rewrites);
        assert_eq!(made, (load.number, load.made), "what the load is for");
        list
    }

    /// The subject's nodes.
    fn size(&self) -> usize {
        self.subject.len() / NODE_WORDS
    }

    #[inline(always)]
    fn make(&mut self, side: Side) {
        let (rules, subject) = black_box((&self.rules[..], &self.subject[..]));
        let (working, result) = black_box((&mut self.working[..], &mut self.result[..]));
        let answer = match side {
            Side::Proved => proved::list_run(rules, subject, self.rewrites, working, result),
            Side::Second => second::list_run(rules, subject, self.rewrites, working, result),
        };
        assert_eq!(black_box(answer), self.answer);
    }
}

/// Rules, a plan, and what is to come of it.
struct Load {
    codes: Vec<Vec<u32>>,
    plan: Term,
    rewrites: u32,
    number: u32,
    made: u32,
}

impl Load {
    /// So many rewrites are asked for, and made.
    fn new(codes: Vec<Vec<u32>>, plan: Term, rewrites: u32) -> Load {
        Load { codes, plan, rewrites, number: DONE, made: rewrites }
    }

    /// None is made, though as many as may be are asked for.
    fn idle(codes: Vec<Vec<u32>>, plan: Term) -> Load {
        Load { codes, plan, rewrites: REWRITES, number: DONE, made: 0 }
    }

    fn refused(self, number: u32) -> Load {
        Load { number, made: 0, ..self }
    }
}

fn load(name: &str) -> Load {
    let (family, variant) = name.split_once('-').unwrap_or((name, ""));
    match family {
        "none" => none(variant.parse().expect("how many rules")),
        "near" => near(),
        "second" => fails_at_second(variant),
        "leaf" => leaf(variant),
        "leaves" => leaves(),
        "renamed" => renamed(),
        "grown" => grown(variant),
        "moved" => moved(variant),
        "beta" => betas(variant),
        "nested" => nested(),
        "last" => last_rule(variant),
        // A run's plan, with its code as the only rule.
        "run" => {
            let plan = Plan::named(variant);
            Load::new(vec![plan.code], Term::of_words(&plan.subject), 1)
        }
        "refused" => refused(name),
        _ => panic!("no such list: {name}"),
    }
}

fn rule(left: &Term, right: &Term) -> Vec<u32> {
    code_of(&Rule::of(left, right))
}

fn x() -> Term {
    Meta(1, Vec::new())
}

fn y() -> Term {
    Meta(2, Vec::new())
}

const A: u32 = 3;
const B: u32 = 4;

fn a_to_b_and_back() -> Vec<Vec<u32>> {
    let (a, b) = (Term::leaf(A), Term::leaf(B));
    vec![rule(&a, &b), rule(&b, &a)]
}

/// A plan that is nothing to any rule.
fn other(nodes: usize) -> Term {
    tree(nodes, &Var(9))
}

/// A leaf or another term before or behind so many other nodes, a few levels down.
fn before(term: Term, nodes: usize) -> Term {
    Sym(9, vec![Sym(9, vec![term, Var(1)]), other(nodes)])
}

fn behind(term: Term, nodes: usize) -> Term {
    Sym(9, vec![other(nodes), Sym(9, vec![Var(1), term])])
}

/// The largest plan, which no rule matches: each has another root symbol.
fn none(rules: usize) -> Load {
    let of_root = |name: usize| rule(&Sym(100 + name as u32, vec![x(), y()]), &x());
    Load::idle((0..rules).map(of_root).collect(), other(SUBJECT_NODES))
}

/// As many rules as may be, with root symbols that differ from the one that fills the plan, and from
/// each other, in no low bit of the name.
fn near() -> Load {
    let of_root = |number: u32| rule(&Sym(2 + (number << 8), vec![x(), y()]), &x());
    Load::idle((1..=LIST_RULES as u32).map(of_root).collect(), other(SUBJECT_NODES))
}

/// As many rules as may be of one root symbol, which fills the plan. All fail at the second node,
/// which is a symbol there and here; the plan is a tree, or as deep as can be in first arguments.
fn fails_at_second(variant: &str) -> Load {
    let of_second = |name: usize| rule(&Sym(2, vec![Sym(100 + name as u32, vec![x()]), y()]), &x());
    let codes = (0..LIST_RULES).map(of_second).collect();
    let leaf = Term::leaf(A);
    let plan = match variant {
        "tree" => tree(SUBJECT_NODES - 1, &leaf),
        "first" => {
            let comb =
                (0..DEPTH - 6).fold(leaf.clone(), |comb, _| Sym(2, vec![comb, leaf.clone()]));
            Term::over(9, vec![comb; 32])
        }
        _ => panic!("no such plan: {variant}"),
    };
    Load::idle(codes, plan)
}

/// A leaf is renamed there and back: alone, before or behind many nodes, or below as many as can be.
fn leaf(variant: &str) -> Load {
    let leaf = Term::leaf(A);
    let plan = match variant {
        "small" => Sym(9, vec![leaf, Var(1)]),
        "first" => before(leaf, 3_700),
        "last" => behind(leaf, 3_700),
        "deep" => behind(Term::chain(8, DEPTH - 3, leaf), 3_600),
        _ => panic!("no such plan: {variant}"),
    };
    Load::new(a_to_b_and_back(), plan, REWRITES)
}

/// Each of a thousand leaves is renamed once.
fn leaves() -> Load {
    let plan = Term::over(9, vec![Sym(9, vec![Term::leaf(A), Var(1)]); 1_000]);
    let rename = rule(&Term::leaf(A), &Term::leaf(B));
    Load::new(vec![rename], plan, REWRITES)
}

/// Each of a thousand nodes above a leaf is renamed once.
fn renamed() -> Load {
    let over = |name: u32, below: Term| Sym(name, vec![below]);
    let place = |number: u32| over(8, Term::leaf(1_000 + number));
    let plan = Term::over(9, (0..REWRITES).map(place).collect());
    Load::new(vec![rule(&over(8, x()), &over(SUCCESSOR, x()))], plan, REWRITES)
}

/// A node more and a node less, in turn, before or behind 3,700 others.
fn grown(variant: &str) -> Load {
    let (a, under) = (Term::leaf(A), Sym(8, vec![Term::leaf(B)]));
    let codes = vec![rule(&a, &under), rule(&under, &a)];
    let plan = match variant {
        "first" => before(a, 3_700),
        "last" => behind(a, 3_700),
        _ => panic!("no such plan: {variant}"),
    };
    Load::new(codes, plan, REWRITES)
}

const PLUS: u32 = 5;
const SUCCESSOR: u32 = 6;

fn plus(first: Term, second: Term) -> Term {
    Sym(PLUS, vec![first, second])
}

fn successor(term: Term) -> Term {
    Sym(SUCCESSOR, vec![term])
}

/// A(S(x), y) to A(x, S(y)), at 77 places some 48 levels down; the levels above are nothing to the
/// rule, or all of them are A's, in the first arguments of one another, and have its root symbol.
fn moved(variant: &str) -> Load {
    const NUMERAL: usize = 13;
    let code = rule(&plus(successor(x()), y()), &plus(x(), successor(y())));
    let term = plus(Term::chain(SUCCESSOR, NUMERAL, Term::leaf(A)), Term::leaf(A));
    let places = Term::over(9, vec![term; 77]);
    let levels = DEPTH - places.depth();
    let plan = match variant {
        "below" => Term::chain(9, levels, places),
        "first" => (0..levels).fold(places, |plan, _| plus(plan, Var(1))),
        _ => panic!("no such plan: {variant}"),
    };
    Load::new(vec![code], plan, REWRITES)
}

/// App and Lam of document 01.
fn app(function: Term, argument: Term) -> Term {
    Sym(1, vec![function, argument])
}

fn redex(body: Term, argument: Term) -> Term {
    app(Sym(2, vec![Term::abst(body)]), argument)
}

fn beta() -> Vec<u32> {
    code_of(&rule_of("beta"))
}

/// Rule B two hundred times, on small bodies side by side; or below Apps in first arguments, each of
/// them a node with the rule's root symbol.
fn betas(variant: &str) -> Load {
    let small = redex(tree(12, &Var(0)), Var(7));
    let plan = match variant {
        "200" => Term::over(9, vec![small; 200]),
        "first" => {
            let places = Term::over(9, vec![small; 200]);
            let levels = DEPTH - places.depth();
            (0..levels).fold(places, |plan, _| app(plan, Var(3)))
        }
        _ => panic!("no such plan: {variant}"),
    };
    Load::new(vec![beta()], plan, 200)
}

/// Fifteen redexes in one another over a body of 2,000 nodes.
fn nested() -> Load {
    const LEVELS: u32 = 15;
    let inside = tree(2_000, &Var(0));
    let plan = (0..LEVELS).fold(inside, |plan, level| redex(plan, Var(7 + level)));
    Load::new(vec![beta()], plan, LEVELS)
}

/// As many rules as may be, of which only the last one matches, at a hundred places some 50 levels
/// down, one after the other: all of one root symbol, which the levels above have too, or each of
/// another.
fn last_rule(variant: &str) -> Load {
    let same_root = variant == "same";
    let root = |number: usize| if same_root { PLUS } else { 100 + number as u32 };
    let idle = |number: usize| {
        let second = Sym(200 + number as u32, vec![x()]);
        rule(&Sym(root(number), vec![second, y()]), &x())
    };
    let mut codes: Vec<Vec<u32>> = (1..LIST_RULES).map(idle).collect();
    let fires =
        |leaf: u32| Sym(if same_root { PLUS } else { SUCCESSOR }, vec![Term::leaf(leaf), x()]);
    codes.push(rule(&fires(A), &fires(B)));
    let place = Sym(if same_root { PLUS } else { SUCCESSOR }, vec![Term::leaf(A), other(28)]);
    let places = Term::over(9, vec![place; 100]);
    let levels = DEPTH - places.depth() - 4;
    let plan = (0..levels).fold(places, |plan, _| Sym(PLUS, vec![plan, Var(1)]));
    Load::new(codes, plan, 100)
}

fn refused(name: &str) -> Load {
    let largest = none(LIST_RULES);
    match name {
        "refused-37" => {
            let more = vec![largest.codes[0].clone(); LIST_RULES + 1];
            Load { codes: more, ..largest }.refused(LIST_TOO_LONG)
        }
        "refused-16" => largest.refused(WORKING_TABLE_SHORT),
        // The last rule's last word.
        "refused-11" => {
            let mut codes = largest.codes;
            codes[LIST_RULES - 1].pop();
            Load { codes, ..largest }.refused(CODE_DOES_NOT_PASS)
        }
        // A plan of 4,087 nodes; the second leaf's eight nodes more are too many.
        "refused-13" => {
            let wide = Sym(8, vec![Term::leaf(B); ARGUMENTS]);
            let plan = Sym(9, vec![other(4_083), Sym(9, vec![Term::leaf(A); 2])]);
            Load::new(vec![rule(&Term::leaf(A), &wide)], plan, 2).refused(RESULT_TOO_LARGE)
        }
        _ => panic!("no such list: {name}"),
    }
}
