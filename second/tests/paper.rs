//! The library against the naive model of 004 on seeded cases.

mod model;

use model::machine::{run as model_run, Machine, Stop};
use model::passing::passes;
use model::terms::{
    self, accept_rule, accept_subject, decode, depth, highest_index, metasubst, size, Term,
};
use model::{seeds, translation};
use second::seed::*;
use second::{check, compile, run, watch, Answer, WatchAnswer};

const OLD: u32 = 0xDEAD_BEEF;

/// What compile must answer, and the whole code table after it.
fn expected_compile(rule: &Rule, table: usize) -> (Answer, Vec<u32>) {
    let mut code = vec![OLD; table];
    let outcome = accept_rule(&rule.left, &rule.right).and_then(|(l, r)| {
        let words = translation::encode(&translation::compile(&l, &r));
        assert!(words.len() <= 4_096, "no accepted rule needs more");
        if words.len() > table {
            return Err(10);
        }
        code[..words.len()].copy_from_slice(&words);
        Ok(words.len() as u32)
    });
    let answer = match outcome {
        Ok(words) => Answer { number: 0, words },
        Err(number) => Answer { number, words: 0 },
    };
    (answer, code)
}

fn compare_compile(rule: &Rule, table: usize) -> u32 {
    let (answer, words) = expected_compile(rule, table);
    let mut code = vec![OLD; table];
    assert_eq!(compile(&rule.left, &rule.right, &mut code), answer, "{rule:?} {table}");
    assert_eq!(code, words, "{rule:?}");
    answer.number
}

/// What run must answer with working room: a number, or the result.
fn expected_run(code: &[u32], subject: &[u32], result_words: usize) -> Result<Vec<u32>, u32> {
    let tree = passes(code).ok_or(11u32)?;
    let t = accept_subject(subject)?;
    let made = match model_run(&t, &tree) {
        Ok(made) => made,
        Err(Stop::Failure) => return Err(12),
        Err(Stop::TooLarge) => return Err(13),
    };
    if size(&made) > 4_096.min(result_words / 2) {
        return Err(13);
    }
    if depth(&made) > 64 {
        return Err(14);
    }
    if highest_index(&made) > 65_535 {
        return Err(15);
    }
    // Demand 3: every variable free in the result is free in the subject.
    let free = terms::freevars(&t);
    assert!(terms::freevars(&made).iter().all(|x| free.contains(x)));
    Ok(terms::encode(&made))
}

fn compare_run(code: &[u32], subject: &[u32], result_words: usize) -> u32 {
    let expected = expected_run(code, subject, result_words);
    let mut work = vec![OLD; 8_192 + result_words % 3];
    let mut result = vec![OLD; result_words];
    let answer = run(code, subject, &mut work, &mut result);
    assert!(work.iter().all(|word| *word == 0));
    let mut table = vec![OLD; result_words];
    let (number, words) = match expected {
        Ok(words) => {
            table[..words.len()].copy_from_slice(&words);
            (0, words.len() as u32)
        }
        Err(number) => (number, 0),
    };
    assert_eq!(answer, Answer { number, words }, "{code:?} on {subject:?}");
    assert_eq!(result, table, "{code:?} on {subject:?}");
    number
}

/// The machine's four numbers after each i, up to one more than there are.
fn compare_watch(code: &[u32], subject: &[u32]) {
    let refused = |number| WatchAnswer { number, current: 0, entries: 0, finished: 0, node: 0 };
    let accepted = passes(code).ok_or(11u32).and_then(|tree| Ok((tree, accept_subject(subject)?)));
    let (tree, t) = match accepted {
        Ok(accepted) => accepted,
        Err(number) => {
            assert_eq!(watch(code, subject, 0), refused(number));
            assert_eq!(watch(code, subject, 3), refused(number));
            return;
        }
    };
    let mut machine = Machine::start(&t);
    let mut expected = WatchAnswer { number: 0, current: 1, entries: 0, finished: 0, node: 0 };
    for i in 0..=tree.len() + 1 {
        assert_eq!(watch(code, subject, i as u32), expected, "{i} of {code:?} on {subject:?}");
        let Some(c) = tree.get(i) else { continue };
        match machine.exec(c) {
            Ok(()) => {}
            Err(Stop::TooLarge) => return,
            Err(Stop::Failure) => {
                expected = refused(12);
                assert_eq!(watch(code, subject, u32::MAX), expected);
                assert_eq!(watch(code, subject, i as u32 + 1), expected);
                return;
            }
        }
        expected.current = machine.curr.len() as u32;
        expected.entries = machine.env.len() as u32;
        expected.finished = machine.stack.len() as u32;
        // The current terms are the subject's last nodes.
        expected.node = (size(&t) - machine.curr.iter().map(size).sum::<usize>()) as u32;
    }
    assert_eq!(watch(code, subject, u32::MAX), expected);
}

fn model_code(rule: &Rule) -> Vec<u32> {
    let (l, r) = accept_rule(&rule.left, &rule.right).expect("a good rule");
    translation::encode(&translation::compile(&l, &r))
}

#[test]
fn good_rules_compile_to_the_papers_code() {
    for seed in seeds(20_000) {
        let mut rng = Rng::new(seed);
        let rule = good_rule(&mut rng);
        let words = model_code(&rule).len();
        assert_eq!(compare_compile(&rule, words + rng.below(3)), 0);
        assert_eq!(compare_compile(&rule, words - 1), 10);
        assert_eq!(compare_compile(&rule, 0), 10);
        assert!(passes(&model_code(&rule)).is_some(), "code of an accepted rule passes");
    }
}

#[test]
fn broken_rules_are_refused_in_order() {
    let mut tally = [0u32; 18];
    for seed in seeds(60_000) {
        let mut rng = Rng::new(seed);
        let mut rule = good_rule(&mut rng);
        for _ in 0..rng.between(1, 3) {
            let refusal = *rng.pick(&BREAKS);
            rule = break_rule(&mut rng, &rule, refusal);
        }
        let table = *rng.pick(&[0, 40, 4_096]);
        tally[compare_compile(&rule, table) as usize] += 1;
    }
    assert!([1, 2, 3, 5, 6, 7, 8, 9].iter().all(|n| tally[*n] > 100), "{tally:?}");
}

#[test]
fn rules_at_the_limits() {
    let numbers = |kind| [false, true].map(|over| compare_compile(&edge_rule(kind, over), 4_096));
    let expected = [
        [0, 2],
        [0, 2],
        [0, 3],
        [0, 3],
        [0, 9],
        [0, 9],
        [0, 1],
        [0, 3],
        [0, 3],
        [0, 6],
        [0, 3],
        [0, 8],
    ];
    for (kind, expected) in expected.into_iter().enumerate() {
        assert_eq!(numbers(kind), expected, "kind {kind}");
    }
    assert_eq!(expected.len(), EDGE_RULES);
}

#[test]
fn compiled_code_runs_as_the_papers_machine() {
    let mut tally = [0u32; 18];
    for seed in seeds(60_000) {
        let mut rng = Rng::new(seed);
        let rule = good_rule(&mut rng);
        let code = model_code(&rule);
        let subject = matching_subject(&mut rng, &rule);
        let words = *rng.pick(&[8_192, 8_192, 8_193, 40, 7]);
        tally[compare_run(&code, &subject, words) as usize] += 1;
        let near = nearly(&mut rng, &subject);
        tally[compare_run(&code, &near, 8_192) as usize] += 1;
        if seed % 4 == 0 {
            compare_watch(&code, &subject);
            compare_watch(&code, &near);
        }
    }
    assert!([0, 1, 4, 12, 13].iter().all(|n| tally[*n] > 20), "{tally:?}");
}

#[test]
fn foreign_code_runs_as_the_papers_machine() {
    let mut tally = [0u32; 18];
    for seed in seeds(60_000) {
        let mut rng = Rng::new(seed);
        let foreign = foreign_code(&mut rng);
        assert!(passes(&foreign.code).is_some(), "{foreign:?}");
        let words = *rng.pick(&[8_192, 8_192, 60, 9]);
        tally[compare_run(&foreign.code, &foreign.subject, words) as usize] += 1;
        let near = nearly(&mut rng, &foreign.subject);
        tally[compare_run(&foreign.code, &near, 8_192) as usize] += 1;
        if seed % 4 == 0 {
            compare_watch(&foreign.code, &foreign.subject);
            compare_watch(&foreign.code, &near);
        }
    }
    assert!([0, 1, 4, 12, 13].iter().all(|n| tally[*n] > 20), "{tally:?}");
    assert!(tally[0] > 10_000, "{tally:?}");
}

#[test]
fn damaged_code_passes_as_01_says() {
    let (mut passed, mut refused) = (0, 0);
    for seed in seeds(120_000) {
        let mut rng = Rng::new(seed);
        let foreign = foreign_code(&mut rng);
        let code = if rng.percent(50) { foreign.code } else { model_code(&good_rule(&mut rng)) };
        let mut damaged = damaged_code(&mut rng, &code);
        if !damaged.is_empty() && rng.percent(20) {
            damaged = damaged_code(&mut rng, &damaged);
        }
        let expected = passes(&damaged).is_some();
        assert_eq!(check(&damaged) == 0, expected, "{damaged:?}");
        if expected {
            passed += 1;
            compare_run(&damaged, &foreign.subject, 8_192);
        } else {
            refused += 1;
            assert_eq!(check(&damaged), 11);
        }
    }
    assert!(passed > 5_000 && refused > 30_000, "{passed} {refused}");
}

#[test]
fn code_at_the_edges_of_the_check() {
    for kind in 0..EDGES {
        for over in [false, true] {
            let edge = edge_code(kind, over);
            assert_eq!(passes(&edge.code).is_some(), !over, "model, kind {kind} over {over}");
            assert_eq!(check(&edge.code), if over { 11 } else { 0 }, "kind {kind} over {over}");
            let number = compare_run(&edge.code, &edge.subject, 8_192);
            assert_eq!(number, if over { 11 } else { 0 }, "kind {kind}");
            compare_watch(&edge.code, &edge.subject);
        }
    }
}

#[test]
fn results_at_the_limits() {
    let expected = [
        [0, 13],
        [0, 13],
        [0, 14],
        [0, 14],
        [0, 15],
        [0, 15],
        [0, 15],
        [0, 13],
        [14, 13],
        [14, 13],
        [15, 13],
        [14, 13],
    ];
    assert_eq!(expected.len(), RESULT_CASES);
    for seed in seeds(200) {
        for (kind, expected) in expected.into_iter().enumerate() {
            for over in [false, true] {
                let case = result_at_limit(&mut Rng::new(seed), kind, over);
                let code = model_code(&case.rule);
                let number = compare_run(&code, &case.subject, case.result_words);
                assert_eq!(number, expected[usize::from(over)], "kind {kind} over {over}");
            }
        }
    }
}

/// The nodes of a term under a valuation, counted without making it; `largest`
/// becomes the most that metasubst, which computes every argument first, makes
/// on the way.
fn size_under(v: terms::Valuation, t: &Term, largest: &mut usize) -> usize {
    let mut sum =
        |ts: &[Term]| -> Vec<usize> { ts.iter().map(|t| size_under(v, t, largest)).collect() };
    let nodes = match t {
        Term::Var(_) => 1,
        Term::Sym(_, ts) => sum(ts).into_iter().fold(1, usize::saturating_add),
        Term::Abst(t) => size_under(v, t, largest).saturating_add(1),
        Term::Meta(z, ts) => {
            let arguments = sum(ts);
            let body = (0..ts.len()).fold(v((*z, ts.len())), |value, _| match value {
                Term::Abst(body) => *body,
                _ => panic!("a valuation gives enough abstractions"),
            });
            let free = terms::freevars(&body);
            (0..).zip(arguments).fold(size(&body), |nodes, (parameter, argument)| {
                let times = free.iter().filter(|x| **x == parameter).count();
                nodes.saturating_add(times.saturating_mul(argument - 1))
            })
        }
    };
    *largest = nodes.max(*largest);
    nodes
}

/// Demand 2 without the machine: the left side under a valuation is rewritten to
/// the right side under it.
#[test]
fn theorem_nine() {
    let mut done = 0;
    for seed in seeds(20_000) {
        let mut rng = Rng::new(seed);
        let rule = good_rule(&mut rng);
        let (l, r) = accept_rule(&rule.left, &rule.right).expect("a good rule");
        let value = |(name, count): (u32, usize)| -> Term {
            let mut rng = Rng::new(seed ^ u64::from(name) << 20 ^ (count as u64) << 50);
            let inside = decode(&random_subject(&mut rng)).expect("a term");
            (0..count).fold(inside, |t, _| terms::abst(t))
        };
        let subject = metasubst(&value, &l);
        if size(&subject) > 2_000 || depth(&subject) > 64 || highest_index(&subject) > 65_535 {
            continue;
        }
        let subject = terms::encode(&subject);
        if expected_run(&model_code(&rule), &subject, 8_192).is_err() {
            continue;
        }
        let mut largest = 0;
        let nodes = size_under(&value, &r, &mut largest);
        if largest > 50_000 {
            continue;
        }
        let right = metasubst(&value, &r);
        assert_eq!(size(&right), nodes);
        let expected = terms::encode(&right);
        let mut code = vec![0; 4_096];
        let words = compile(&rule.left, &rule.right, &mut code).words as usize;
        let (mut work, mut result) = (vec![0; 8_192], vec![0; 8_192]);
        let answer = run(&code[..words], &subject, &mut work, &mut result);
        assert_eq!(answer, Answer { number: 0, words: expected.len() as u32 });
        assert_eq!(result[..expected.len()], expected);
        done += 1;
    }
    assert!(done > 10_000, "{done}");
}
