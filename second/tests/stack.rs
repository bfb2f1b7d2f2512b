//! The calls on a small stack, with the deepest inputs that there are.

use second::seed::{edge_code, edge_rule, result_at_limit, Rng, EDGES, EDGE_RULES, RESULT_CASES};
use second::{check, compile, list_run, run, watch};

/// A thread's own needs are part of this; a system may round it up.
const STACK_BYTES: usize = 48 * 1_024;
/// A list run keeps the new part of a plan there, 8,192 words, until it is put in.
const LIST_STACK_BYTES: usize = STACK_BYTES + 32 * 1_024;

fn on_a_small_stack(work: impl FnOnce() + Send + 'static) {
    on_a_stack(STACK_BYTES, work);
}

fn on_a_stack(bytes: usize, work: impl FnOnce() + Send + 'static) {
    let thread = std::thread::Builder::new().stack_size(bytes).spawn(work);
    thread.expect("a thread").join().expect("no panic");
}

#[test]
fn deepest_code() {
    for kind in 0..EDGES {
        let edge = edge_code(kind, false);
        let (mut work, mut result) = (vec![0; 8_192], vec![0; 8_192]);
        on_a_small_stack(move || {
            assert_eq!(check(&edge.code), 0);
            assert_eq!(run(&edge.code, &edge.subject, &mut work, &mut result).number, 0);
            assert_eq!(watch(&edge.code, &edge.subject, u32::MAX).number, 0);
        });
    }
}

#[test]
fn deepest_code_in_a_list() {
    for kind in 0..EDGES {
        let edge = edge_code(kind, false);
        let rules = [&[edge.code.len() as u32], &edge.code[..]].concat();
        let (mut work, mut result) = (vec![0; 16_384], vec![0; 8_192]);
        on_a_stack(LIST_STACK_BYTES, move || {
            let answer = list_run(&rules, &edge.subject, 1, &mut work, &mut result);
            assert_eq!((answer.number, answer.rewrites), (0, 1));
        });
    }
}

#[test]
fn deepest_rules_and_results() {
    for kind in 0..EDGE_RULES {
        let rule = edge_rule(kind, false);
        let mut code = vec![0; 4_096];
        on_a_small_stack(move || {
            assert_eq!(compile(&rule.left, &rule.right, &mut code).number, 0);
        });
    }
    for kind in 0..RESULT_CASES {
        let case = result_at_limit(&mut Rng::new(1), kind, false);
        let (mut code, mut work, mut result) = (vec![0; 4_096], vec![0; 8_192], vec![0; 8_192]);
        on_a_small_stack(move || {
            let words = compile(&case.rule.left, &case.rule.right, &mut code).words as usize;
            let answer = run(&code[..words], &case.subject, &mut work, &mut result);
            assert!([0, 14, 15].contains(&answer.number));
        });
    }
}
