//! The list run (02, request 1) against the plainest one there is, the model's.

mod model;

use std::collections::BTreeMap;

use model::list::list_run as plain;
use model::seeds;
use model::terms::encode;
use second::limits::{LIST_WORKING_WORDS, NODE_WORDS, RESULT_NODES, WORKING_WORDS};
use second::seed::*;
use second::{compile, list_run, ListAnswer};

const OLD: u32 = 0xDEAD_BEEF;
const RESULT_WORDS: usize = NODE_WORDS * RESULT_NODES;

/// All that a list run is lent.
#[derive(Clone, Debug)]
struct Call {
    rules: Vec<u32>,
    subject: Vec<u32>,
    rewrites: u32,
    work: usize,
    result: usize,
}

impl Call {
    /// With room for every result.
    fn new(codes: &[Vec<u32>], subject: Vec<u32>, rewrites: u32) -> Call {
        let (work, result) = (LIST_WORKING_WORDS, RESULT_WORDS);
        Call { rules: table_of(codes), subject, rewrites, work, result }
    }
}

/// Each rule's word count and code.
fn table_of(codes: &[Vec<u32>]) -> Vec<u32> {
    codes.iter().flat_map(|code| [&[code.len() as u32], &code[..]].concat()).collect()
}

fn code_of(rule: &Rule) -> Vec<u32> {
    let mut code = vec![0; 4_096];
    let answer = compile(&rule.left, &rule.right, &mut code);
    assert_eq!(answer.number, 0, "{rule:?}");
    code.truncate(answer.words as usize);
    code
}

/// Makes a call and the plain one; gives the answer that both agree on.
fn compare(call: &Call) -> ListAnswer {
    let (mut work, mut result) = (vec![OLD; call.work], vec![OLD; call.result]);
    let answer = list_run(&call.rules, &call.subject, call.rewrites, &mut work, &mut result);
    let mut expected = vec![OLD; call.result];
    let expected_answer =
        match plain(&call.rules, &call.subject, call.rewrites, [call.work, call.result]) {
            Ok((plan, rewrites, normal)) => {
                let words = encode(&plan);
                expected[..words.len()].copy_from_slice(&words);
                ListAnswer { number: 0, words: words.len() as u32, rewrites, normal: normal.into() }
            }
            Err(number) => ListAnswer { number, words: 0, rewrites: 0, normal: 0 },
        };
    assert_eq!(answer, expected_answer, "{call:?}");
    assert_eq!(result, expected, "{call:?}");
    assert!(work.iter().all(|word| *word == 0), "{call:?}");
    answer
}

// Seeded calls.

/// How often each number came, and done with how many rewrites.
#[derive(Default)]
struct Tally {
    numbers: BTreeMap<u32, usize>,
    normal: usize,
    not_normal: usize,
    most_rewrites: u32,
}

impl Tally {
    fn count(&mut self, answer: ListAnswer) {
        *self.numbers.entry(answer.number).or_default() += 1;
        self.normal += answer.normal as usize;
        self.not_normal += usize::from(answer.number == 0 && answer.normal == 0);
        self.most_rewrites = self.most_rewrites.max(answer.rewrites);
    }

    fn times(&self, number: u32) -> usize {
        self.numbers.get(&number).copied().unwrap_or(0)
    }
}

/// Rules that feed each other, on a plan of their symbols.
fn feeding(rng: &mut Rng) -> Call {
    let codes: Vec<Vec<u32>> = feeding_rules(rng, 6).iter().map(code_of).collect();
    let nodes = *rng.pick(&[1, 5, 20, 60]);
    let plan = feeding_plan(rng, nodes);
    let rewrites = *rng.pick(&[0, 1, 2, 5, 20, 60]);
    Call::new(&codes, plan.words(), rewrites)
}

/// Rules as they come, their instances planted in a plan.
fn instances(rng: &mut Rng) -> Call {
    let rules: Vec<Rule> = (0..rng.between(1, 4)).map(|_| good_rule(rng)).collect();
    let terms: Vec<Term> = (0..rng.between(1, 5))
        .map(|_| {
            let rule = rng.pick(&rules).clone();
            Term::of_words(&matching_subject(rng, &rule))
        })
        .collect();
    let around = Term::of_words(&random_subject(rng));
    let plan = planted(rng, &around, &terms);
    let codes: Vec<Vec<u32>> = rules.iter().map(code_of).collect();
    Call::new(&codes, plan.words(), rng.below(8) as u32)
}

/// Code that no compiler writes, with what it matches planted in a plan.
fn foreign(rng: &mut Rng) -> Call {
    let made: Vec<ForeignCode> = (0..rng.between(1, 4)).map(|_| foreign_code(rng)).collect();
    let terms: Vec<Term> = made.iter().map(|made| Term::of_words(&made.subject)).collect();
    let around = Term::of_words(&random_subject(rng));
    let plan = planted(rng, &around, &terms);
    let codes: Vec<Vec<u32>> = made.into_iter().map(|made| made.code).collect();
    Call::new(&codes, plan.words(), rng.below(12) as u32)
}

/// One thing of a call changed, so that mostly a refusal is due.
fn spoilt(rng: &mut Rng, mut call: Call) -> Call {
    match rng.below(7) {
        0 => call.rules.truncate(rng.below(call.rules.len())),
        1 => call.subject = nearly(rng, &call.subject),
        2 => call.work = *rng.pick(&[0, WORKING_WORDS, LIST_WORKING_WORDS - 1]),
        3 => call.rewrites = *rng.pick(&[1_001, 65_536, u32::MAX]),
        4 => {
            let short = [0, 0, 6, 4, 2, 12, 0].repeat(rng.between(0, 2));
            call.rules.extend(short);
        }
        5 => call.rules.extend([4, 4, 2, 12, 0].repeat(rng.between(26, 33))),
        _ => call.rules = damaged_code(rng, &call.rules),
    }
    call
}

#[test]
fn the_list_run_does_what_the_plain_one_does() {
    let mut tally = Tally::default();
    for seed in seeds(6_000) {
        let mut rng = Rng::new(seed);
        let make = *rng.pick(&[feeding, feeding, instances, foreign]);
        let mut call = make(&mut rng);
        call.result = *rng.pick(&[RESULT_WORDS, RESULT_WORDS + 1, call.subject.len(), 100, 40]);
        if rng.percent(15) {
            call = spoilt(&mut rng, call);
        }
        tally.count(compare(&call));
    }
    for number in [0, 1, 11, 13, 16, 37] {
        assert!(tally.times(number) >= 30, "{number}: {} times", tally.times(number));
    }
    assert!(tally.normal > 1_000 && tally.not_normal > 1_000);
    assert_eq!(tally.most_rewrites, 60);
}

/// A result table that has room for the plan of so many rewrites, and one with
/// a node less.
#[test]
fn room_for_the_largest_plan_of_the_sequence() {
    let mut refused = 0;
    for seed in seeds(400) {
        let mut rng = Rng::new(seed);
        let mut call = feeding(&mut rng);
        let mut largest = call.subject.len();
        let most = call.rewrites.min(12);
        for rewrites in 0..=most {
            call.rewrites = rewrites;
            let answer = compare(&call);
            largest = largest.max(answer.words as usize);
            if answer.number != 0 {
                break;
            }
        }
        for words in [largest, largest - 1, largest - 2] {
            call.result = words;
            let answer = compare(&call);
            refused += usize::from(answer.number == 13);
        }
    }
    assert!(refused > 400, "{refused}");
}

fn sym(name: u32, arguments: &[Term]) -> Term {
    Term::Sym(name, arguments.to_vec())
}

fn z() -> Term {
    Term::Meta(1, Vec::new())
}

fn rule(left: Term, right: Term) -> Vec<u32> {
    code_of(&Rule::of(&left, &right))
}

/// 14 and 15 after several rewrites, at the edge and one past it.
#[test]
fn depth_and_index_of_the_whole_plan() {
    for (levels, abstractions) in [(0, 0), (1, 0), (5, 2), (40, 0), (0, 40)] {
        let around = |term| Term::chain(8, levels, Term::under(abstractions, term));
        // F(Z) to G(F(Z)): a level a time, below so many others.
        let deeper = rule(sym(1, &[z()]), sym(2, &[sym(1, &[z()])]));
        let plan = around(sym(1, &[Term::leaf(3)]));
        let left = 64 - plan.depth() as u32;
        let number = |rewrites| {
            compare(&Call::new(std::slice::from_ref(&deeper), plan.words(), rewrites)).number
        };
        assert_eq!((number(left), number(left + 1), number(1_000)), (0, 14, 14));
        // F(Z) to F([Z]): each free index one higher a time.
        let lifted = rule(sym(1, &[z()]), sym(1, &[Term::abst(z())]));
        let plan = around(sym(1, &[Term::Var(65_535 - 5)]));
        let number = |rewrites| {
            compare(&Call::new(std::slice::from_ref(&lifted), plan.words(), rewrites)).number
        };
        assert_eq!((number(5), number(6), number(1_000)), (0, 15, 15));
    }
}

/// Rules that never end, for as many rewrites as may be.
#[test]
fn a_thousand_rewrites() {
    let (a, b) = (|| sym(1, &[]), || sym(2, &[]));
    let codes = [rule(a(), b()), rule(b(), a())];
    let plan = sym(5, &[sym(6, &[a()]), Term::abst(sym(5, &[b(), Term::Var(3)]))]).words();
    for rewrites in [998, 999, 1_000] {
        let answer = compare(&Call::new(&codes, plan.clone(), rewrites));
        let words = plan.len() as u32;
        assert_eq!(answer, ListAnswer { number: 0, words, rewrites, normal: 0 });
    }
    assert_eq!(compare(&Call::new(&codes, plan, 1_001)).number, 37);
}

#[test]
fn noise_is_refused_and_never_panics() {
    for seed in seeds(4_000) {
        let mut rng = Rng::new(seed);
        let mut call = feeding(&mut rng);
        let noise = |rng: &mut Rng| -> Vec<u32> {
            let most = *rng.pick(&[0, 1, 2, 20, 300]);
            let kind = rng.below(3);
            let word = |rng: &mut Rng| match kind {
                0 => rng.bits() as u32,
                1 => rng.below(14) as u32,
                _ => *rng.pick(&[0, 0, 1, 4, 65_536, 65_538, 196_608, 131_072, u32::MAX]),
            };
            (0..rng.below(most + 1)).map(|_| word(rng)).collect()
        };
        if rng.percent(60) {
            call.rules = noise(&mut rng);
        }
        if rng.percent(40) {
            call.subject = noise(&mut rng);
        }
        call.work = *rng.pick(&[0, 1, LIST_WORKING_WORDS, LIST_WORKING_WORDS + 5]);
        call.result = *rng.pick(&[0, 1, 2, 30, RESULT_WORDS]);
        compare(&call);
    }
}
