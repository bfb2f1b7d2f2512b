//! `reed_watch` and the second implementation's `watch` on the same code and subjects, for every
//! number of instructions: the same five words, and guards, code and subject left alone.

#[path = "../compile/accepted.rs"]
mod accepted;
#[path = "../run/bad.rs"]
#[allow(dead_code)]
mod bad;
#[path = "../run/cases.rs"]
#[allow(dead_code)]
mod cases;
#[path = "../check/limits.rs"]
#[allow(dead_code)]
mod code_limits;
#[path = "../check/damage.rs"]
#[allow(dead_code)]
mod damage;
mod examples;
#[path = "../run/matched.rs"]
mod matched;
#[path = "../run/order.rs"]
#[allow(dead_code)]
mod order;
#[path = "../check/parts.rs"]
#[allow(dead_code)]
mod parts;
#[path = "../run/results.rs"]
#[allow(dead_code)]
mod results;
#[path = "../compile/spoilt.rs"]
#[allow(dead_code)]
mod spoilt;
#[path = "../check/twins.rs"]
#[allow(dead_code)]
mod twins;

use cases::*;
use linked::code::instructions;
use linked::compare::{compare, share_of, Kind};
#[cfg(target_arch = "x86_64")]
use linked::engine::linked::watch;
use linked::numbers::*;
use linked::watch::Watch;
use order::{first_due, Defect};
use second::limits::{DEPTH, INDEX, SUBJECT_NODES};
use second::seed::{Rng, Term};

/// The numbers that watch gives.
const NUMBERS: [u32; 7] = [
    DONE,
    TABLE_NOT_GOOD,
    TOO_MANY_WORDS,
    TOO_DEEP,
    METAVARIABLE_IN_SUBJECT,
    CODE_DOES_NOT_PASS,
    MATCH_FAILS,
];

#[test]
fn reed_watch_does_what_the_second_implementation_does() {
    let tally = compare(&KINDS);
    print!("reed_watch: {tally}");
    assert!(tally.calls() >= share_of(500_000));
    for number in NUMBERS {
        let times = tally.times(number);
        assert!(times >= share_of(1_000), "{number} came {times} times");
    }
    // An empty slice's pointer need not point to memory.
    #[cfg(target_arch = "x86_64")]
    for (code, number) in [(&[][..], CODE_DOES_NOT_PASS), (&[2, 8, 0, 0], TABLE_NOT_GOOD)] {
        assert_eq!(watch(code, &[], 0).number, number);
    }
}

const DONE_ONLY: &[u32] = &[DONE];
const NOT_GOOD: &[u32] = &[TABLE_NOT_GOOD];

const KINDS: [Kind<Watch>; 36] = [
    // Every number of instructions.
    Kind::new("compiled, matching, every i", DONE_ONLY, 4_000, |rng| every_i(rng, compiled_short)),
    Kind::new("compiled, a leaf changed, every i", &[0, 12], 3_000, |rng| {
        every_i_changed(rng, compiled_short, other_leaf)
    }),
    Kind::new("much of one thing, every i", DONE_ONLY, 200, |rng| every_i(rng, compiled_much)),
    Kind::new("foreign, every i", &[0, 12], 4_000, |rng| every_i(rng, foreign)),
    Kind::new("foreign, a leaf changed, every i", &[0, 12], 3_000, |rng| {
        every_i_changed(rng, foreign, other_leaf)
    }),
    Kind::new("foreign, another subject, every i", &[0, 12], 2_000, |rng| {
        every_i(rng, foreign_again)
    }),
    Kind::new("at an edge of the check, some i", DONE_ONLY, 1_000, |rng| some_i(rng, edge)),
    Kind::new("the check's own cases, some i", &[0, 3, 12], 5_000, |rng| some_i(rng, check_case)),
    // Some numbers of instructions.
    Kind::new("compiled, matching", DONE_ONLY, 10_000, |rng| some_i(rng, compiled)),
    Kind::new("compiled, nearly matching", &[0, 1, 4, 12], 5_000, |rng| {
        some_i_changed(rng, compiled, near)
    })
    .or_rarely(&[3]),
    Kind::new("compiled, any subject", &[0, 12], 2_000, |rng| {
        some_i_changed(rng, compiled_short, on_any)
    }),
    Kind::new("compiled, high indices", &[0, 12], 2_000, |rng| some_i(rng, compiled_high)),
    Kind::new("much of one thing, matching", DONE_ONLY, 1_500, |rng| some_i(rng, compiled_much)),
    Kind::new("much of one thing, nearly", &[0, 1, 4, 12], 1_500, |rng| {
        some_i_changed(rng, compiled_much, near)
    })
    .or_rarely(&[3]),
    Kind::new("as large as can be, matching", DONE_ONLY, 100, |rng| some_i(rng, compiled_large)),
    Kind::new("compiled, damaged", &[0, 11, 12], 2_000, |rng| {
        some_i_changed(rng, compiled, damaged)
    }),
    Kind::new("foreign, nearly matching", &[0, 1, 4, 12], 5_000, |rng| {
        some_i_changed(rng, foreign, near)
    })
    .or_rarely(&[3]),
    Kind::new("foreign, damaged", &[0, 11, 12], 3_000, |rng| some_i_changed(rng, foreign, damaged)),
    Kind::new("over an edge of the check", &[11], 200, |rng| some_i(rng, over_edge)),
    // Results past every limit are no refusal here.
    Kind::new("results past a limit", DONE_ONLY, 200, |rng| {
        let mut cases = results::nodes(rng, 4_097);
        cases.extend(results::depth(rng, DEPTH + 1));
        cases.extend(results::index(rng, INDEX + 1));
        cases.extend(results::exponential(rng, 64));
        cases.extend(results::deep_bodies(rng, DEPTH - 1));
        cases.iter().map(|case| Watch::new(rng, &case.code, &case.subject, u32::MAX)).collect()
    }),
    Kind::new("a CHECK's variable, listed or not", &[0, 12], 1_000, |rng| {
        let listed = rng.percent(50);
        let case = checked(rng, listed);
        at_some_i(rng, &case)
    }),
    Kind::new("one variable, wanted or not", &[0, 12], 500, |rng| {
        let turned = rng.percent(50);
        let case = one_keyed(rng, turned);
        at_some_i(rng, &case)
    }),
    Kind::new("EQI to 65,535 and past it", &[0, 12], 1_000, |rng| {
        let index = INDEX + rng.below(41) as u32;
        let case = results::compared(rng, index).swap_remove(0);
        at_every_i(rng, &case)
    }),
    // Subjects.
    Kind::new("1: every cut", NOT_GOOD, 200, |rng| refused(rng, bad::every_cut)),
    Kind::new("1: words after", NOT_GOOD, 1_000, |rng| refused(rng, bad::words_after)),
    Kind::new("1: no such node", NOT_GOOD, 2_000, |rng| refused(rng, bad::no_such_node)),
    Kind::new("1: another count", NOT_GOOD, 2_000, |rng| refused(rng, bad::another_count)),
    Kind::new("2: too many words", &[TOO_MANY_WORDS], 500, |rng| refused(rng, bad::too_long)),
    Kind::new("3: too deep", &[TOO_DEEP], 1_000, |rng| refused(rng, bad::too_deep)),
    Kind::new("4: metavariable", &[METAVARIABLE_IN_SUBJECT], 2_000, |rng| {
        refused(rng, bad::metavariable)
    }),
    Kind::new("subject of depth 64", &[0, 12], 1_000, |rng| {
        let case = compiled_short(rng);
        let subject = bad::with_depth(rng, &case, DEPTH);
        at_some_i(rng, &Case { subject, ..case })
    }),
    Kind::new("subject of 4,096 nodes", DONE_ONLY, 50, |rng| large_subject(rng, SUBJECT_NODES)),
    Kind::new("subject of 4,097 nodes", &[TOO_MANY_WORDS], 50, |rng| {
        large_subject(rng, SUBJECT_NODES + 1)
    }),
    // The first of several.
    Kind::new("11, 2, 1, 3, 4 before what follows", &[1, 2, 3, 4, 11], 300, |rng| {
        const REFUSED: [Defect; 5] = [
            Defect::CodeDoesNotPass,
            Defect::SubjectTooLong,
            Defect::SubjectNotGood,
            Defect::SubjectTooDeep,
            Defect::SubjectMetavariable,
        ];
        REFUSED.into_iter().flat_map(|first| ordered(rng, first)).collect()
    }),
    Kind::new("12, whatever the result would be", &[0, 12], 300, |rng| {
        ordered(rng, Defect::MatchFails)
    }),
    Kind::new("no refusal, whatever the result", DONE_ONLY, 300, |rng| {
        ordered(rng, Defect::ResultTooLarge)
    }),
];

/// Makes code with a subject.
type Make = fn(&mut Rng) -> Case;
/// Changes it.
type Change = fn(&mut Rng, Case) -> Case;

fn at(rng: &mut Rng, case: &Case, i: usize) -> Watch {
    Watch::new(rng, &case.code, &case.subject, i as u32)
}

/// No instruction, one and so on to more than there are, and far more, up to as many as can be said.
fn at_every_i(rng: &mut Rng, case: &Case) -> Vec<Watch> {
    let past = instructions(&case.code) + 2;
    let far = [1 << 8, 1 << 16, 1 << 31, u32::MAX as usize];
    (0..=past).chain(far).map(|i| at(rng, case, i)).collect()
}

/// None, some, nearly all, all, one more and as many as can be said.
fn at_some_i(rng: &mut Rng, case: &Case) -> Vec<Watch> {
    // Code that does not pass has no instructions to count.
    let all = if second::check(&case.code) == DONE { instructions(&case.code) } else { 20 };
    let some = [rng.below(all), rng.below(all), all - 1, all, u32::MAX as usize];
    some.map(|i| at(rng, case, i)).into()
}

fn every_i(rng: &mut Rng, make: Make) -> Vec<Watch> {
    let case = make(rng);
    at_every_i(rng, &case)
}

fn every_i_changed(rng: &mut Rng, make: Make, change: Change) -> Vec<Watch> {
    let case = make(rng);
    let case = change(rng, case);
    at_every_i(rng, &case)
}

fn some_i(rng: &mut Rng, make: Make) -> Vec<Watch> {
    let case = make(rng);
    at_some_i(rng, &case)
}

fn some_i_changed(rng: &mut Rng, make: Make, change: Change) -> Vec<Watch> {
    let case = make(rng);
    let case = change(rng, case);
    at_some_i(rng, &case)
}

/// Code that passes on each of these subjects, whatever i is.
fn refused(rng: &mut Rng, subjects: fn(&mut Rng, &Case) -> Vec<Vec<u32>>) -> Vec<Watch> {
    let case = if rng.percent(50) { compiled_short(rng) } else { foreign_short(rng) };
    let mut calls = Vec::new();
    for subject in subjects(rng, &case) {
        let i = *rng.pick(&[0, 1, 5, u32::MAX]);
        calls.push(Watch::new(rng, &case.code, &subject, i));
    }
    calls
}

/// So many nodes; the code makes entries of all of them and goes down into the first arguments.
fn large_subject(rng: &mut Rng, nodes: usize) -> Vec<Watch> {
    let name = rng.below(9) as u32;
    let subject = Term::of_nodes(name, nodes).words();
    let mut code = [4, 0, name, 8].repeat(3);
    code.extend([2; 1 + 3 * 7]);
    code.extend([13, 0, 64, 0]);
    at_every_i(rng, &Case::new(code, subject))
}

/// With i of all, and with i of none unless that would hide a failing instruction.
fn ordered(rng: &mut Rng, first: Defect) -> Vec<Watch> {
    let mut calls = Vec::new();
    for defects in first_due(rng, first) {
        let case = order::defective(rng, &defects);
        for i in [0, 2, u32::MAX] {
            calls.push(Watch::new(rng, &case.code, &case.subject, i));
        }
    }
    calls
}
