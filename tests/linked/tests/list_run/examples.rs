//! List runs by hand: document 02's request 1 and the readings of open point 18. Code, plans and
//! results are written down from the documents; no program made them.

use linked::call::{difference, Answer};
use linked::engine::Engine;
use linked::list_run::{table_of, Lent, ListRun, RESULT_WORDS};
use linked::numbers::*;
use second::limits::LIST_WORKING_WORDS;
use second::seed::{Rng, Term};
use Term::{Sym, Var};

struct Example {
    why: &'static str,
    rules: Vec<u32>,
    subject: Vec<u32>,
    rewrites: u32,
    working: usize,
    result: usize,
    answer: [u32; 4],
    words: Vec<u32>,
}

/// A call that lends enough; what comes of it is still to be said.
fn on(why: &'static str, rules: &[&[u32]], plan: Term, rewrites: u32) -> Example {
    let codes: Vec<Vec<u32>> = rules.iter().map(|code| code.to_vec()).collect();
    Example {
        why,
        rules: table_of(&codes),
        subject: plan.words(),
        rewrites,
        working: LIST_WORKING_WORDS,
        result: RESULT_WORDS,
        answer: [u32::MAX; 4],
        words: Vec::new(),
    }
}

impl Example {
    /// So many rewrites to this plan, and whether no rule matches it.
    fn gives(self, plan: Term, rewrites: u32, normal: bool) -> Example {
        let words = plan.words();
        Example { answer: [DONE, words.len() as u32, rewrites, normal.into()], words, ..self }
    }

    fn refused(self, number: u32) -> Example {
        Example { answer: [number, 0, 0, 0], words: Vec::new(), ..self }
    }

    /// With a result table of so many words.
    fn room(self, result: usize) -> Example {
        Example { result, ..self }
    }

    fn working(self, working: usize) -> Example {
        Example { working, ..self }
    }

    /// With this table of rules, or these words of a subject.
    fn rules(self, rules: Vec<u32>) -> Example {
        Example { rules, ..self }
    }

    fn subject(self, subject: Vec<u32>) -> Example {
        Example { subject, ..self }
    }
}

// App is 1/2, Lam 2/1, C 3/0, F 4/1, G 5/0, P 6/2.

fn app(function: Term, argument: Term) -> Term {
    Sym(1, vec![function, argument])
}

fn lam(body: Term) -> Term {
    Sym(2, vec![Term::abst(body)])
}

fn c() -> Term {
    Term::leaf(3)
}

fn f(argument: Term) -> Term {
    Sym(4, vec![argument])
}

fn g() -> Term {
    Term::leaf(5)
}

fn p(first: Term, second: Term) -> Term {
    Sym(6, vec![first, second])
}

// Rules as their code, each as document 01 translates it.

/// C to G: IS 3 0, CELL 5 0.
const C_TO_G: &[u32] = &[0, 3, 0, 8, 5, 0];
/// G to C.
const G_TO_C: &[u32] = &[0, 5, 0, 8, 3, 0];
/// F(Z) to G: IS 4 1, CHECK, SET, NEXT, CELL 5 0.
const F_TO_G: &[u32] = &[0, 4, 1, 3, 0, 4, 2, 8, 5, 0];
/// F(Z) to Z.
const F_TAKES: &[u32] = &[0, 4, 1, 3, 0, 4, 2, 13, 0, 64, 0];
/// F(Z) to P(Z, Z).
const F_DOUBLES: &[u32] = &[0, 4, 1, 3, 0, 4, 2, 13, 0, 64, 0, 13, 0, 64, 0, 8, 6, 2];
/// F(Z) to F(F(Z)).
const F_NESTS: &[u32] = &[0, 4, 1, 3, 0, 4, 2, 13, 0, 64, 0, 8, 4, 1, 8, 4, 1];
/// F(Z) to F([Z]).
const F_LIFTS: &[u32] = &[0, 4, 1, 3, 0, 4, 2, 9, 13, 0, 65, 0, 10, 8, 4, 1];
/// P(X, Y) to X: the first metavariable has location 1.
const P_TAKES: &[u32] = &[0, 6, 2, 3, 0, 4, 2, 3, 0, 4, 2, 13, 1, 64, 0];
/// P(G, Y) to Y.
const P_OF_G: &[u32] = &[0, 6, 2, 0, 5, 0, 3, 0, 4, 2, 13, 0, 64, 0];
/// P(P(G, X), Y) to X.
const P_OF_P: &[u32] = &[0, 6, 2, 0, 6, 2, 0, 5, 0, 3, 0, 4, 2, 3, 0, 4, 2, 13, 1, 64, 0];
/// Rule B, as document 01 has it.
const B: &[u32] = &[0, 1, 2, 0, 2, 1, 1, 3, 0, 4, 2, 3, 0, 4, 2, 13, 1, 63, 1, 0, 4, 13, 0, 64, 0];

fn examples() -> Vec<Example> {
    let all = [
        ends(),
        first_node_and_rule(),
        above_and_below(),
        rule_b(),
        foreign(),
        counts(),
        order(),
        nodes(),
        depth_and_index(),
    ];
    all.into_iter().flatten().collect()
}

/// How the sequence ends, and what is told of it.
fn ends() -> Vec<Example> {
    let two = || p(c(), c());
    vec![
        on("no rule at all: nothing matches any more", &[], two(), 7).gives(two(), 0, true),
        on("the same with no rewrite", &[], two(), 0).gives(two(), 0, true),
        on("a rule that matches nowhere is no 12", &[F_TO_G], two(), 7).gives(two(), 0, true),
        on("no rewrite: still looked at", &[C_TO_G], two(), 0).gives(two(), 0, false),
        on("used up before the end", &[C_TO_G], two(), 1).gives(p(g(), c()), 1, false),
        on("used up at the end", &[C_TO_G], two(), 2).gives(p(g(), g()), 2, true),
        on("three plans are two rewrites", &[C_TO_G], two(), 3).gives(p(g(), g()), 2, true),
        on("never ends: even", &[C_TO_G, G_TO_C], c(), 1_000).gives(c(), 1_000, false),
        on("never ends: odd", &[C_TO_G, G_TO_C], c(), 999).gives(g(), 999, false),
        on("never ends: one more than may be", &[C_TO_G, G_TO_C], c(), 1_001)
            .refused(LIST_TOO_LONG),
    ]
}

/// The first node in prefix order, and there the first rule.
fn first_node_and_rule() -> Vec<Example> {
    let nested = || f(f(c()));
    vec![
        on("a node comes before those in it", &[F_TAKES], nested(), 1).gives(f(c()), 1, false),
        on("its rule comes before an earlier one of theirs", &[C_TO_G, F_TAKES], f(c()), 1).gives(
            c(),
            1,
            false,
        ),
        on("left before right", &[C_TO_G], p(p(g(), c()), c()), 1).gives(
            p(p(g(), g()), c()),
            1,
            false,
        ),
        on("the first of two rules", &[F_TO_G, F_TAKES], nested(), 5).gives(g(), 1, true),
        on("the same two turned", &[F_TAKES, F_TO_G], nested(), 5).gives(c(), 2, true),
        on("the first one does not match there", &[P_OF_G, P_TAKES], p(c(), g()), 5).gives(
            c(),
            1,
            true,
        ),
    ]
}

/// What a rewrite lets match.
fn above_and_below() -> Vec<Example> {
    vec![
        // P(C, F(G)): the C becomes G; now P(G, Y) matches above it; F(G) is left.
        on("above the node that was rewritten", &[P_OF_G, C_TO_G], p(c(), f(g())), 9).gives(
            f(g()),
            2,
            true,
        ),
        // P(P(C, G), C): C, then the inner P, then the outer one, before the last C.
        on("the nearest and then the root", &[P_OF_G, C_TO_G], p(p(c(), g()), c()), 2).gives(
            p(g(), c()),
            2,
            false,
        ),
        on("the same to its end", &[P_OF_G, C_TO_G], p(p(c(), g()), c()), 9).gives(g(), 4, true),
        // C becomes G, and both nodes above it match: the root goes first, though its rule is later.
        on("of two above the higher one", &[P_OF_G, P_OF_P, C_TO_G], p(p(c(), f(g())), c()), 9)
            .gives(f(g()), 2, true),
        // F(C) to P(C, C), whose parts are then rewritten.
        on("in what was made", &[F_DOUBLES, C_TO_G], f(c()), 9).gives(p(g(), g()), 3, true),
        on("at what was made", &[F_TAKES], f(f(f(c()))), 9).gives(c(), 3, true),
        on("behind what was made", &[F_TAKES, C_TO_G], p(f(g()), f(c())), 9).gives(
            p(g(), g()),
            3,
            true,
        ),
    ]
}

/// Rule B, under abstractions and with free variables.
fn rule_b() -> Vec<Example> {
    let inner = app(lam(Var(0)), Var(0));
    vec![
        // App(Lam([App(Lam([0]), 0)]), 7): the outer one first.
        on("the outer redex first", &[B], app(lam(inner.clone()), Var(7)), 1).gives(
            app(lam(Var(0)), Var(7)),
            1,
            false,
        ),
        on("then the inner one", &[B], app(lam(inner), Var(7)), 9).gives(Var(7), 2, true),
        // [App(Lam([P(0, 1)]), 0)]: 0 stands for the argument, and 1 is the outer variable.
        on("under an abstraction", &[B], Term::abst(app(lam(p(Var(0), Var(1))), Var(0))), 9).gives(
            Term::abst(p(Var(0), Var(0))),
            1,
            true,
        ),
        // P3 below a symbol: the argument is moved under Lam's abstraction.
        on("P3 below a symbol", &[B], f(app(lam(lam(Var(1))), Var(7))), 9).gives(
            f(lam(Var(8))),
            1,
            true,
        ),
        // Omega makes itself again.
        on("omega", &[B], app(lam(app(Var(0), Var(0))), lam(app(Var(0), Var(0)))), 500).gives(
            app(lam(app(Var(0), Var(0))), lam(app(Var(0), Var(0)))),
            500,
            false,
        ),
    ]
}

/// Code that no compiler writes.
fn foreign() -> Vec<Example> {
    vec![
        on("NEXT, CELL 3 0: the root, always", &[&[2, 8, 3, 0]], f(g()), 4).gives(c(), 4, false),
        on("SET, NEXT, PUSHIMM: itself", &[&[4, 2, 12, 0]], f(g()), 1_000).gives(
            f(g()),
            1_000,
            false,
        ),
        on("before a rule that would match first", &[&[4, 2, 12, 0], F_TAKES], f(g()), 3).gives(
            f(g()),
            3,
            false,
        ),
        on("behind it", &[F_TAKES, G_TO_C, &[4, 2, 12, 0]], f(g()), 3).gives(c(), 3, false),
        // ISABST, CHECK 0, SET, NEXT, PUSHI: an abstraction whose variable does not occur.
        on(
            "ISABST: the inner one is taken away, the outer one is used",
            &[&[1, 3, 1, 0, 4, 2, 13, 0, 63, 0]],
            Term::abst(Term::abst(p(Var(1), Var(5)))),
            9,
        )
        .gives(Term::abst(p(Var(0), Var(4))), 1, true),
        // CHECK of nothing, SET, IS 4 1, NEXT, PUSHIMM 0: F(Z) to itself.
        on("CHECK and SET before IS", &[&[3, 0, 4, 0, 4, 1, 2, 12, 0]], p(c(), f(g())), 2).gives(
            p(c(), f(g())),
            2,
            false,
        ),
    ]
}

/// How many rules, and how they end.
fn counts() -> Vec<Example> {
    let rules = |count: usize| vec![C_TO_G; count];
    let table = |count| table_of(&vec![C_TO_G.to_vec(); count]);
    let cut = |count| {
        let mut table = table(count);
        table.pop();
        table
    };
    let of = |why, rules| on(why, &[], c(), 9).rules(rules);
    vec![
        on("31 rules", &rules(31), c(), 9).gives(g(), 1, true),
        on("32 rules", &rules(32), c(), 9).gives(g(), 1, true),
        on("33 rules", &rules(33), c(), 9).refused(LIST_TOO_LONG),
        of("the only one cut", cut(1)).refused(CODE_DOES_NOT_PASS),
        of("only its count is there", vec![6]).refused(CODE_DOES_NOT_PASS),
        of("a count that no table has", vec![u32::MAX, 0, 3]).refused(CODE_DOES_NOT_PASS),
        of("the second one cut", cut(2)).refused(CODE_DOES_NOT_PASS),
        of("32 with the last one cut: counted, and bad", cut(32)).refused(CODE_DOES_NOT_PASS),
        of("33 with the last one cut: counted", cut(33)).refused(LIST_TOO_LONG),
        of("a rule of no words", vec![0]).refused(CODE_DOES_NOT_PASS),
        of("the same behind a good one", [table(1), vec![0]].concat()).refused(CODE_DOES_NOT_PASS),
        of("the same 33 times", vec![0; 33]).refused(LIST_TOO_LONG),
        on("a rule that cannot matter is bad", &[C_TO_G, &[8, 3, 0]], g(), 0)
            .refused(CODE_DOES_NOT_PASS),
        on("just enough working words", &[C_TO_G], c(), 1).working(16_384).gives(g(), 1, true),
        on("more of them", &[C_TO_G], c(), 1).working(16_999).gives(g(), 1, true),
        on("one too few", &[C_TO_G], c(), 1).working(16_383).refused(WORKING_TABLE_SHORT),
        on("what a run needs", &[C_TO_G], c(), 1).working(8_192).refused(WORKING_TABLE_SHORT),
        on("none", &[C_TO_G], c(), 1).working(0).refused(WORKING_TABLE_SHORT),
    ]
}

/// 37, 16, 11, 2, 1, 3, 4, 13: each with all that come after it.
fn order() -> Vec<Example> {
    let bad: &[u32] = &[99];
    let deep = || Term::chain(4, 64, Term::Meta(1, Vec::new()));
    let long = || vec![u32::MAX; 8_193];
    let base = |why, rules: &[&[u32]], rewrites| on(why, rules, deep(), rewrites).room(1);
    vec![
        base("rewrites", &[bad], 1_001).working(3).subject(long()).refused(LIST_TOO_LONG),
        base("rules", &[bad; 33], 1).working(3).subject(long()).refused(LIST_TOO_LONG),
        base("working", &[bad], 1).working(3).subject(long()).refused(WORKING_TABLE_SHORT),
        base("rule", &[bad], 1).subject(long()).refused(CODE_DOES_NOT_PASS),
        base("words", &[F_NESTS], 1).subject(long()).refused(TOO_MANY_WORDS),
        base("table", &[F_NESTS], 1)
            .subject([deep().words(), c().words()].concat())
            .refused(TABLE_NOT_GOOD),
        base("no words", &[F_NESTS], 1).subject(Vec::new()).refused(TABLE_NOT_GOOD),
        base("depth", &[F_NESTS], 1).refused(TOO_DEEP),
        base("metavariable", &[F_NESTS], 1)
            .subject(f(Term::Meta(1, Vec::new())).words())
            .refused(METAVARIABLE_IN_SUBJECT),
        base("the subject itself is too large", &[F_NESTS], 0)
            .subject(f(c()).words())
            .refused(RESULT_TOO_LARGE),
    ]
}

/// 13 of each whole plan of the sequence.
fn nodes() -> Vec<Example> {
    let pair = || p(c(), c());
    // P over two of 2,047 nodes each; F(C) is one of them at the end of the second.
    let large = |last: Term| {
        let second = Sym(7, vec![Term::of_nodes(8, 2_047 - 1 - last.nodes()), last]);
        p(Term::of_nodes(8, 2_047), second)
    };
    vec![
        on("the subject fits", &[], pair(), 0).room(6).gives(pair(), 0, true),
        on("also with an odd word", &[], pair(), 0).room(7).gives(pair(), 0, true),
        on("the subject does not, with no rewrite", &[], pair(), 0)
            .room(5)
            .refused(RESULT_TOO_LARGE),
        on("nor does it become smaller in time", &[P_TAKES], pair(), 5)
            .room(5)
            .refused(RESULT_TOO_LARGE),
        // F(C), P(C, C), C: two nodes, three, one.
        on("a plan between fits", &[F_DOUBLES, P_TAKES], f(c()), 5).room(6).gives(c(), 2, true),
        on("a plan between does not", &[F_DOUBLES, P_TAKES], f(c()), 5)
            .room(5)
            .refused(RESULT_TOO_LARGE),
        on("it is the last one asked for", &[F_DOUBLES, P_TAKES], f(c()), 1)
            .room(5)
            .refused(RESULT_TOO_LARGE),
        on("one more would be it", &[F_DOUBLES, P_TAKES], f(c()), 0).room(5).gives(
            f(c()),
            0,
            false,
        ),
        // P(F(P(C, C)), C): the root's second argument could be rewritten, and P_TAKES behind fits.
        on("the first node decides", &[F_DOUBLES, C_TO_G], p(f(pair()), c()), 1)
            .room(12)
            .refused(RESULT_TOO_LARGE),
        on("the first rule decides", &[F_DOUBLES, F_TAKES], f(pair()), 1)
            .room(8)
            .refused(RESULT_TOO_LARGE),
        on("turned, the other one does", &[F_TAKES, F_DOUBLES], f(pair()), 1).room(8).gives(
            pair(),
            1,
            true,
        ),
        // 4,095 nodes, and F(C) becomes P(C, C): 4,096.
        on("4,096 nodes", &[F_DOUBLES], large(f(c())), 9).gives(large_doubled(), 1, true),
        // F(F(C)) becomes P(F(C), F(C)): 4,095 and two.
        on("4,097 nodes", &[F_DOUBLES], large(f(f(c()))), 9).refused(RESULT_TOO_LARGE),
        on("a longer table gives no more", &[F_DOUBLES], large(f(f(c()))), 9)
            .room(9_000)
            .refused(RESULT_TOO_LARGE),
    ]
}

fn large_doubled() -> Term {
    let second = Sym(7, vec![Term::of_nodes(8, 2_044), p(c(), c())]);
    p(Term::of_nodes(8, 2_047), second)
}

/// 14 and 15 of the whole plan, not of the part that was made.
fn depth_and_index() -> Vec<Example> {
    let below = |levels, part: Term| Term::chain(9, levels, part);
    let fs = |count, end: Term| Term::chain(4, count, end);
    vec![
        // 60 levels, F and C: depth 62. F(Z) to F(F(Z)) is one more a time.
        on("depth 64", &[F_NESTS], below(60, f(c())), 2).gives(below(60, fs(3, c())), 2, false),
        on("depth 65", &[F_NESTS], below(60, f(c())), 3).refused(RESULT_TOO_DEEP),
        on("depth 65, before the end", &[F_NESTS], below(60, f(c())), 1_000)
            .refused(RESULT_TOO_DEEP),
        on("13 comes before 14", &[F_NESTS], below(60, f(c())), 3)
            .room(2 * 64)
            .refused(RESULT_TOO_LARGE),
        // The abstraction goes over what was deep: the part alone is within every limit.
        on("the levels above count", &[F_LIFTS], below(40, f(fs(22, c()))), 1)
            .refused(RESULT_TOO_DEEP),
        on("one level fewer", &[F_LIFTS], below(39, f(Term::chain(9, 22, c()))), 1).gives(
            below(39, f(Term::abst(Term::chain(9, 22, c())))),
            1,
            false,
        ),
        // F(Z) to F([Z]): Z's free index is one higher a time.
        on("index 65,535", &[F_LIFTS], f(Var(65_533)), 2).gives(
            f(Term::abst(Term::abst(Var(65_535)))),
            2,
            false,
        ),
        on("index 65,536", &[F_LIFTS], f(Var(65_533)), 3).refused(RESULT_INDEX_TOO_HIGH),
        on("a high index that is not moved", &[F_LIFTS], p(Var(65_535), f(Var(3))), 2).gives(
            p(Var(65_535), f(Term::abst(Term::abst(Var(5))))),
            2,
            false,
        ),
        on(
            "under an abstraction an index is the same word",
            &[F_LIFTS],
            Term::abst(f(Var(65_534))),
            1,
        )
        .gives(Term::abst(f(Term::abst(Var(65_535)))), 1, false),
        on("and one more is too high", &[F_LIFTS], Term::abst(f(Var(65_535))), 1)
            .refused(RESULT_INDEX_TOO_HIGH),
        on("14 comes before 15", &[F_LIFTS], below(62, f(Var(65_535))), 1).refused(RESULT_TOO_DEEP),
    ]
}

#[test]
fn reed_list_run_does_what_the_documents_say() {
    let mut engine = Engine::start().expect("the library can be reached");
    for example in examples() {
        let Example { why, rules, subject, rewrites, working, result, answer, words } = example;
        let lent = Lent { working, result, reach: RESULT_WORDS };
        let call = ListRun::new(&mut Rng::new(0), &rules, &subject, rewrites, lent);
        let [number, count, made, normal] = answer;
        let expected: Answer = [number, count, made, normal, 0];
        let mut calls = [call.clone()];
        let answers = engine.make(&mut calls).expect("the library comes back");
        let differs = difference((&calls[0], answers[0]), (&call.done_with(&words), expected));
        assert_eq!(differs, None, "{why}");
    }
}
