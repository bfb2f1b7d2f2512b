//! Lists of rules with a plan that they rewrite.

use linked::code::*;
use linked::list_run::table_of;
use second::limits::{CODE_WORDS, DEPTH, SUBJECT_NODES};
use second::seed::{
    edge_code, feeding_plan, feeding_rules, foreign_code, good_rule, matching_subject, planted,
    random_subject, ForeignCode, Rng, Rule, Term, EDGES,
};
use Term::{Meta, Sym, Var};

#[derive(Clone)]
pub struct Case {
    pub codes: Vec<Vec<u32>>,
    pub subject: Vec<u32>,
    pub rewrites: u32,
}

impl Case {
    pub fn new(codes: Vec<Vec<u32>>, plan: &Term, rewrites: u32) -> Case {
        Case { codes, subject: plan.words(), rewrites }
    }

    pub fn table(&self) -> Vec<u32> {
        table_of(&self.codes)
    }
}

/// The code of an accepted rule.
pub fn code_of(rule: &Rule) -> Vec<u32> {
    let mut code = vec![0; CODE_WORDS];
    let answer = second::compile(&rule.left, &rule.right, &mut code);
    assert_eq!(answer.number, 0, "a rule that is accepted");
    code.truncate(answer.words as usize);
    code
}

/// A rule's code.
pub fn rule(left: &Term, right: &Term) -> Vec<u32> {
    code_of(&Rule::of(left, right))
}

/// Metavariables without arguments.
pub fn x() -> Term {
    Meta(1, Vec::new())
}

pub fn y() -> Term {
    Meta(2, Vec::new())
}

/// A number of rewrites: mostly few, so that the last plan is no end.
fn some_rewrites(rng: &mut Rng) -> u32 {
    *rng.pick(&[0, 1, 2, 3, 5, 9, 20, 50, 200])
}

// Rules that meet by chance.

/// Rules that feed each other, on a plan of their symbols.
pub fn feeding(rng: &mut Rng) -> Case {
    feeding_of(rng, 6, &[1, 3, 8, 20, 60])
}

/// The same on large plans.
pub fn feeding_large(rng: &mut Rng) -> Case {
    feeding_of(rng, 4, &[300, 900, 2_500])
}

/// As many rules as may be: several for each root symbol, with other second nodes.
pub fn feeding_many(rng: &mut Rng) -> Case {
    let mut case = feeding_of(rng, 6, &[20, 60, 150]);
    while case.codes.len() < 31 {
        let more = feeding_rules(rng, 8);
        case.codes.extend(more.iter().map(code_of));
    }
    case.codes.truncate(32);
    case
}

fn feeding_of(rng: &mut Rng, rules: usize, sizes: &[usize]) -> Case {
    let codes = feeding_rules(rng, rules).iter().map(code_of).collect();
    let nodes = *rng.pick(sizes);
    let plan = feeding_plan(rng, nodes);
    Case::new(codes, &plan, some_rewrites(rng))
}

/// Rules as they come, with instances of their left sides somewhere in a plan.
pub fn instances(rng: &mut Rng) -> Case {
    let rules: Vec<Rule> = (0..rng.between(1, 5)).map(|_| good_rule(rng)).collect();
    let mut terms = Vec::new();
    for _ in 0..rng.between(1, 6) {
        let rule = rng.pick(&rules).clone();
        terms.push(Term::of_words(&matching_subject(rng, &rule)));
    }
    let around = Term::of_words(&random_subject(rng));
    let plan = planted(rng, &around, &terms);
    Case::new(rules.iter().map(code_of).collect(), &plan, rng.below(9) as u32)
}

// Code that no compiler writes.

/// With what it matches somewhere in a plan.
pub fn foreign(rng: &mut Rng) -> Case {
    let made: Vec<ForeignCode> = (0..rng.between(1, 5)).map(|_| foreign_code(rng)).collect();
    let terms: Vec<Term> = made.iter().map(|made| Term::of_words(&made.subject)).collect();
    let around = Term::of_words(&random_subject(rng));
    let plan = planted(rng, &around, &terms);
    let codes = made.into_iter().map(|made| made.code).collect();
    Case::new(codes, &plan, rng.below(12) as u32)
}

/// Before any code the root's own tests, none of which can fail: CHECK of nothing, SET, and the root
/// compared with itself. It begins with any of them; entries count from the newest, so the code's own
/// are the same.
pub fn begun(rng: &mut Rng, code: &[u32]) -> Vec<u32> {
    let sets = code.iter().filter(|word| **word == SET).count();
    let mut begun = Vec::new();
    let mut entries = 0;
    for _ in 0..rng.between(1, 4) {
        match rng.below(4) {
            0 if entries > 0 => begun.extend([EQIMM, rng.below(entries) as u32]),
            1 if entries > 0 => begun.extend(eqi(rng.below(entries) as u32, 64, &[])),
            // No more entries than there may be.
            2 | 3 if entries + sets < 12 => {
                begun.push(SET);
                entries += 1;
            }
            _ => begun.extend(check(&[])),
        }
    }
    begun.extend(code);
    begun
}

/// Rules that feed each other, all with such a beginning.
pub fn begun_rules(rng: &mut Rng) -> Case {
    let mut case = feeding(rng);
    for code in &mut case.codes {
        if rng.percent(80) {
            *code = begun(rng, code);
        }
    }
    case
}

/// The first instruction of each sort, beside a compiled rule or two.
pub fn beginning(rng: &mut Rng, first: u32) -> Case {
    let code = match first {
        // Any term becomes a symbol; itself; itself below a symbol; or two of it.
        NEXT => vec![NEXT, CELL, rng.below(3) as u32, 0],
        SET => {
            let right: [&[u32]; 4] = [
                &[PUSHIMM, 0],
                &[PUSHIMM, 0, CELL, 3, 1],
                &[PUSHIMM, 0, PUSHIMM, 0, CELL, 4, 2],
                &[LAMBDA, PUSHI, 0, 65, 0, ADBMAL],
            ];
            [&[SET, NEXT], *rng.pick(&right)].concat()
        }
        // A symbol, with the whole term as an entry too.
        CHECK => {
            let right: [&[u32]; 3] =
                [&[PUSHIMM, 0], &[PUSHIMM, 2, CELL, 3, 1], &[PUSHIMM, 0, PUSHIMM, 1, CELL, 5, 2]];
            let left = [CHECK, 0, SET, IS, 4, 2, SET, NEXT, SET, NEXT];
            [&left[..], *rng.pick(&right)].concat()
        }
        // An abstraction is left out, where its variable does not occur; or filled; or doubled.
        _ => {
            let codes: [&[u32]; 4] = [
                &[ISABST, CHECK, 1, 0, SET, NEXT, PUSHI, 0, 63, 0],
                &[ISABST, SET, NEXT, PUSHI, 0, 63, 1, 0, 3, CELL, 0, 0],
                &[ISABST, SET, NEXT, LAMBDA, PUSHIMM, 0, ADBMAL, CELL, 2, 1],
                &[ISABST, ISABST, SET, NEXT, PUSHI, 0, 62, 2, 0, 3, CELL, 0, 0, 1, 3, CELL, 1, 0],
            ];
            rng.pick(&codes).to_vec()
        }
    };
    let mut case = feeding(rng);
    case.codes.truncate(rng.between(1, 3));
    let place = rng.below(case.codes.len() + 1);
    case.codes.insert(place, code);
    case
}

/// Code at an edge of the check, below other nodes.
pub fn edge(rng: &mut Rng) -> Case {
    loop {
        let edge = edge_code(rng.below(EDGES), false);
        let subject = Term::of_words(&edge.subject);
        let levels = DEPTH.saturating_sub(subject.depth()).min(rng.below(5));
        let plan = (0..levels).fold(subject, |plan, _| Sym(9, vec![Term::leaf(8), plan]));
        if plan.nodes() <= SUBJECT_NODES {
            return Case::new(vec![edge.code], &plan, rng.between(1, 3) as u32);
        }
    }
}

// Many candidates.

const ROOT: u32 = 1;

/// Rules of one root symbol that differ in their second node: symbols, an abstraction, anything.
pub fn one_root(rng: &mut Rng) -> Case {
    let codes = (0..rng.between(2, 32)).map(|_| one_root_rule(rng)).collect();
    let nodes = *rng.pick(&[10, 60, 200]);
    let plan = one_root_plan(rng, &mut { nodes }, 30);
    Case::new(codes, &plan, some_rewrites(rng))
}

fn one_root_rule(rng: &mut Rng) -> Vec<u32> {
    let number = rng.below(6) as u32;
    let second = match rng.below(8) {
        0 => Term::abst(Meta(3, vec![Var(0)])),
        1 => Term::abst(Sym(number, vec![x()])),
        2 => Sym(ROOT, vec![x(), x()]),
        3 | 4 => Sym(number + 10, vec![x()]),
        5 => Sym(ROOT, vec![Term::leaf(number), x()]),
        _ => Term::leaf(number),
    };
    let right = match rng.below(4) {
        0 => y(),
        1 => Sym(ROOT, vec![y(), Term::leaf(number)]),
        2 => Sym(ROOT, vec![Term::leaf(5 - number), y()]),
        _ => Term::leaf(number),
    };
    rule(&Sym(ROOT, vec![second, y()]), &right)
}

fn one_root_plan(rng: &mut Rng, room: &mut usize, levels: usize) -> Term {
    *room = room.saturating_sub(1);
    if *room == 0 || levels == 0 {
        return Term::leaf(rng.below(9) as u32);
    }
    match rng.below(9) {
        0 => Term::abst(one_root_plan(rng, room, levels - 1)),
        1 => Sym(10 + rng.below(7) as u32, vec![one_root_plan(rng, room, levels - 1)]),
        2 => Term::leaf(rng.below(9) as u32),
        3 => Var(rng.below(4) as u32),
        _ => {
            let first = one_root_plan(rng, room, levels - 1);
            Sym(ROOT, vec![first, one_root_plan(rng, room, levels - 1)])
        }
    }
}

/// Rules of names and counts that a table by few of their bits takes for one another: equal in the
/// low bits of the name, the same name with every count, and plans of all of them.
pub fn near_names(rng: &mut Rng) -> Case {
    let base = rng.below(300) as u32;
    let steps = [1, 8, 9, 16, 32, 64, 128, 256, 1_024, 4_096, 32_768];
    let step = *rng.pick(&steps);
    let name = |rng: &mut Rng| (base + step * rng.below(4) as u32) % 65_536;
    let node = |rng: &mut Rng, argument: Term| {
        Sym(name(rng), [vec![argument], vec![Term::leaf(base); rng.below(8)]].concat())
    };
    let mut codes = Vec::new();
    for _ in 0..rng.between(1, 20) {
        let count = rng.between(1, 8);
        let left = Sym(name(rng), (0..count as u32).map(|name| Meta(name, Vec::new())).collect());
        let kept = Meta(rng.below(count) as u32, Vec::new());
        let right = if rng.percent(50) { kept } else { node(rng, kept) };
        codes.push(rule(&left, &right));
    }
    let mut plan = Term::leaf(base);
    for _ in 0..rng.between(1, 40) {
        plan = node(rng, plan);
    }
    Case::new(codes, &plan, rng.below(12) as u32)
}

// Lists that were made for something.

/// Rules that never end, anywhere in a plan.
pub fn endless(rng: &mut Rng) -> Case {
    let (f, s) = (|a, b| Sym(4, vec![a, b]), |a| Sym(2, vec![a]));
    let codes = match rng.below(5) {
        0 => vec![rule(&Term::leaf(0), &Term::leaf(1)), rule(&Term::leaf(1), &Term::leaf(0))],
        1 => vec![rule(&s(x()), &s(x()))],
        2 => vec![rule(&f(x(), y()), &f(y(), x()))],
        3 => vec![rule(&s(x()), &Sym(3, vec![x()])), rule(&Sym(3, vec![x()]), &s(x()))],
        _ => vec![vec![SET, NEXT, PUSHIMM, 0]],
    };
    let nodes = *rng.pick(&[1, 6, 30, 300]);
    let plan = f(s(Term::leaf(0)), feeding_plan(rng, nodes));
    let rewrites = *rng.pick(&[0, 1, 2, 998, 999, 1_000]);
    Case::new(codes, &plan, rewrites)
}

/// App and Lam of document 01.
fn app(function: Term, argument: Term) -> Term {
    Sym(1, vec![function, argument])
}

fn lam(body: Term) -> Term {
    Sym(2, vec![Term::abst(body)])
}

pub fn beta() -> Vec<u32> {
    rule(&app(lam(Meta(3, vec![Var(0)])), y()), &Meta(3, vec![y()]))
}

fn eta() -> Vec<u32> {
    rule(&lam(app(x(), Var(0))), &x())
}

/// Rule B and its fellow on terms with many redexes, under abstractions and with free variables.
pub fn lambda(rng: &mut Rng) -> Case {
    let mut codes = vec![beta(), eta()];
    if rng.percent(30) {
        codes.swap(0, 1);
    }
    codes.truncate(rng.between(1, 2));
    let nodes = *rng.pick(&[10, 40, 120]);
    let around = rng.below(20);
    let plan = Term::under(around, lambda_plan(rng, around as u32, &mut { nodes }, 14));
    Case::new(codes, &plan, some_rewrites(rng))
}

fn lambda_plan(rng: &mut Rng, above: u32, room: &mut usize, levels: usize) -> Term {
    *room = room.saturating_sub(1);
    if *room == 0 || levels == 0 {
        return Var(rng.below(above as usize + 3) as u32);
    }
    match rng.below(8) {
        0..=2 => {
            let body = lambda_plan(rng, above + 1, room, levels - 1);
            app(lam(body), lambda_plan(rng, above, room, levels - 1))
        }
        3 | 4 => {
            let function = lambda_plan(rng, above, room, levels - 1);
            app(function, lambda_plan(rng, above, room, levels - 1))
        }
        5 => {
            let function = lambda_plan(rng, above + 1, room, levels - 2.min(levels));
            lam(app(function, Var(0)))
        }
        6 => lam(lambda_plan(rng, above + 1, room, levels - 1)),
        _ => Var(rng.below(above as usize + 3) as u32),
    }
}

/// Parts of a large plan removed and doubled: K(x, y) to x, D(x) to P(x, x).
pub fn large_parts(rng: &mut Rng) -> Case {
    const K: u32 = 20;
    const D: u32 = 21;
    const P: u32 = 22;
    let codes = vec![
        rule(&Sym(K, vec![x(), y()]), &x()),
        rule(&Sym(D, vec![x()]), &Sym(P, vec![x(), x()])),
        rule(&Sym(P, vec![Term::leaf(0), y()]), &y()),
    ];
    let mut plan = Term::of_nodes(9, rng.between(1, 400));
    while plan.nodes() < 2_000 && plan.depth() < DEPTH - 4 {
        let nodes = rng.between(1, 300);
        plan = match rng.below(6) {
            0 => Sym(K, vec![Term::of_nodes(9, nodes), plan]),
            1 => Sym(K, vec![plan, Term::of_nodes(9, nodes)]),
            2 if plan.nodes() < 900 => Sym(D, vec![plan]),
            3 => Sym(P, vec![Term::leaf(rng.below(2) as u32), plan]),
            4 => Term::abst(Sym(8, vec![plan, Var(rng.below(40) as u32)])),
            _ => Sym(8, vec![Term::of_nodes(9, nodes), plan, Term::of_nodes(9, nodes)]),
        };
    }
    Case::new(codes, &plan, rng.below(60) as u32)
}

/// Plans down to depth 64, rewritten at the deepest nodes and above them.
pub fn deep(rng: &mut Rng) -> Case {
    let (s, t) = (|a| Sym(2, vec![a]), |a| Sym(3, vec![a]));
    let all = [
        rule(&Term::leaf(0), &Term::leaf(1)),
        rule(&s(Term::leaf(1)), &t(Term::leaf(0))),
        rule(&t(Term::leaf(1)), &Term::leaf(1)),
        rule(&s(s(x())), &t(x())),
        rule(&t(t(x())), &s(x())),
        rule(&Sym(4, vec![x(), y()]), &Sym(5, vec![y(), x()])),
        vec![ISABST, SET, NEXT, LAMBDA, PUSHIMM, 0, CELL, 3, 1, ADBMAL],
    ];
    let count = rng.between(1, 4);
    let chosen = rng.distinct(count, all.len());
    let codes = chosen.into_iter().map(|number| all[number as usize].clone()).collect();
    let depth = if rng.percent(60) { DEPTH } else { rng.between(DEPTH - 6, DEPTH - 1) };
    let mut plan = Term::leaf(rng.below(2) as u32);
    while plan.depth() < depth {
        plan = match rng.below(8) {
            0 => Term::abst(plan),
            1 => Sym(4, vec![Term::leaf(0), plan]),
            2 => Sym(4, vec![plan, Var(3)]),
            3..=5 => s(plan),
            _ => t(plan),
        };
    }
    Case::new(codes, &plan, rng.below(80) as u32)
}

/// Successors moved from one argument to the other, in the first arguments of one another: each
/// rewrite is deeper than, or just above, the one before.
pub fn moved(rng: &mut Rng) -> Case {
    let (a, s) = (|m, n| Sym(30, vec![m, n]), |n| Sym(31, vec![n]));
    let zero = || Term::leaf(32);
    let codes = vec![rule(&a(zero(), y()), &y()), rule(&a(s(x()), y()), &a(x(), s(y())))];
    let mut plan = zero();
    let most = rng.between(1, 25);
    for _ in 0..rng.between(1, 12) {
        let numeral = (0..rng.below(4)).fold(zero(), |term, _| s(term));
        plan = if rng.percent(70) { a(plan, numeral) } else { a(numeral, plan) };
    }
    let plan = Term::chain(8, most, Sym(9, vec![plan, Term::of_nodes(9, rng.between(1, 50))]));
    Case::new(codes, &plan, some_rewrites(rng))
}

/// A rewrite below lets rules match above, at any distance, often several at once: the highest node
/// is first. A rule for the rewritten node itself stands before or behind in the list.
pub fn above(rng: &mut Rng) -> Case {
    let name = 40;
    // The left sides go down to the leaf, past the first or the second arguments.
    let first = rng.percent(50);
    let around = |inside: Term, with: Term| {
        Sym(name, if first { vec![inside, with] } else { vec![with, inside] })
    };
    let mut codes = vec![rule(&Term::leaf(0), &Term::leaf(1))];
    for _ in 0..rng.between(1, 3) {
        let levels = rng.between(1, 5);
        let down = |term, level| around(term, Meta(level as u32, Vec::new()));
        let left = (0..levels).fold(Term::leaf(1), down);
        let kept = Meta(rng.below(levels) as u32, Vec::new());
        codes.push(rule(&left, &Sym(name + 1 + rng.below(2) as u32, vec![kept])));
    }
    if rng.percent(50) {
        codes.push(rule(&Term::leaf(1), &Term::leaf(2)));
    }
    if rng.percent(30) {
        codes.insert(0, rule(&Sym(name + 1, vec![x()]), &x()));
    }
    let order = rng.distinct(codes.len(), codes.len());
    let codes = order.into_iter().map(|number| codes[number as usize].clone()).collect();
    let mut plan = Term::leaf(rng.below(2) as u32);
    for _ in 0..rng.between(1, 8) {
        let with = Term::of_nodes(9, rng.between(1, 4));
        plan = around(plan, if rng.percent(20) { Term::leaf(0) } else { with });
    }
    Case::new(codes, &plan, rng.below(7) as u32)
}

/// The same with a comparison or a CHECK: the rewrite below makes two parts equal, or takes a bound
/// variable away, so that a rule above matches.
pub fn above_compared(rng: &mut Rng) -> Case {
    let settle = rule(&Term::leaf(0), &Term::leaf(1));
    let equal = rule(&Sym(40, vec![x(), x()]), &Sym(41, vec![x()]));
    let unbound = rule(&Sym(42, vec![Term::abst(x())]), &x());
    let drop = rule(&Sym(43, vec![x(), y()]), &y());
    let part = |rng: &mut Rng| {
        let leaf = Term::leaf(rng.below(2) as u32);
        Sym(8, vec![Term::leaf(7), leaf, Var(rng.below(3) as u32)])
    };
    let mut plan = part(rng);
    for _ in 0..rng.between(1, 4) {
        plan = match rng.below(3) {
            0 => {
                let mut twin = plan.clone();
                let node = rng.below(twin.nodes());
                if let Sym(name @ (0 | 1), _) = twin.at_mut(node) {
                    *name ^= 1;
                }
                Sym(40, vec![plan, twin])
            }
            1 => Sym(42, vec![Term::abst(Sym(43, vec![Var(0), plan]))]),
            _ => Sym(8, vec![plan, part(rng)]),
        };
    }
    let codes = [settle, equal, unbound, drop];
    let order = rng.distinct(codes.len(), codes.len());
    let codes = order.into_iter().map(|number| codes[number as usize].clone()).collect();
    Case::new(codes, &plan, rng.below(12) as u32)
}

/// The same from far below: what is compared or forbidden at or near the root is changed any number of
/// levels down.
pub fn far_above(rng: &mut Rng) -> Case {
    let settle = rule(&Term::leaf(0), &Term::leaf(1));
    let equal = rule(&Sym(40, vec![x(), x()]), &Sym(41, vec![x()]));
    let unbound = rule(&Sym(42, vec![Term::abst(x())]), &x());
    let drop = rule(&Sym(43, vec![x(), y()]), &y());
    let levels = rng.between(1, DEPTH - 8);
    let down = |rng: &mut Rng, end: Term| {
        (0..levels).fold(end, |term, level| match level % 3 {
            0 => Sym(8, vec![Term::leaf(7), term]),
            1 if rng.percent(30) => Sym(8, vec![term, Term::leaf(7)]),
            _ => Sym(8, vec![term]),
        })
    };
    let plan = if rng.percent(50) {
        let one = down(rng, Term::leaf(1));
        let mut other = one.clone();
        let node = other.nodes() - 1 - rng.below(3);
        if let leaf @ Sym(1, _) = other.at_mut(node) {
            *leaf = Term::leaf(0);
        }
        Sym(40, if rng.percent(50) { vec![one, other] } else { vec![other, one] })
    } else {
        Sym(42, vec![Term::abst(down(rng, Sym(43, vec![Var(0), Term::leaf(2)])))])
    };
    let plan = Term::chain(9, rng.below(3), plan);
    Case::new(vec![settle, equal, unbound, drop], &plan, rng.below(5) as u32)
}

/// The same under bindings: only once S(X) has become T([X]) or T(X) below it, the latency of a With is
/// put in place there, through nodes that were made and nodes that were not.
pub fn above_bound(rng: &mut Rng) -> Case {
    const S: u32 = 45;
    const T: u32 = 46;
    const WITH: u32 = 47;
    let held = if rng.percent(50) { Term::abst(x()) } else { x() };
    let settle = rule(&Sym(S, vec![x()]), &Sym(T, vec![held]));
    let body = Sym(8, vec![Sym(T, vec![Meta(3, vec![Var(0)])]), Meta(4, vec![Var(0)])]);
    let filled = Sym(9, vec![Meta(3, vec![y()]), Meta(4, vec![y()])]);
    let with = |latency, body| Sym(WITH, vec![latency, Term::abst(body)]);
    let fill = rule(&with(y(), body), &if rng.percent(40) { Term::abst(filled) } else { filled });
    let mut plan = Sym(8, vec![Var(0), Var(1), Term::abst(Sym(9, vec![Var(0), Var(1), Var(3)]))]);
    for _ in 0..rng.between(1, 5) {
        let beside = Term::abst(Sym(9, vec![Var(rng.below(4) as u32), Var(0)]));
        let latency = Sym(9, vec![Var(rng.below(3) as u32), Term::leaf(1)]);
        plan = match rng.below(6) {
            0 => Term::abst(plan),
            1 => Sym(9, vec![plan, beside]),
            _ => with(latency, Sym(8, vec![Sym(S, vec![plan]), beside])),
        };
    }
    let codes = if rng.percent(50) { vec![settle, fill] } else { vec![fill, settle] };
    Case::new(codes, &plan, rng.below(15) as u32)
}
