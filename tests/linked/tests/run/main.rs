//! `reed_run` and the second implementation's `run` on the same code, subjects and tables: the same
//! number and count, the same words, a working table of zeros, and guards, code and subject left
//! alone.

#[path = "../compile/accepted.rs"]
mod accepted;
mod bad;
mod cases;
#[path = "../check/limits.rs"]
#[allow(dead_code)]
mod code_limits;
#[path = "../check/damage.rs"]
#[allow(dead_code)]
mod damage;
mod examples;
mod lent;
mod matched;
mod order;
#[path = "../check/parts.rs"]
#[allow(dead_code)]
mod parts;
mod results;
#[path = "../compile/spoilt.rs"]
#[allow(dead_code)]
mod spoilt;
#[path = "../check/twins.rs"]
#[allow(dead_code)]
mod twins;

use cases::*;
use linked::compare::{compare, share_of, Kind};
#[cfg(target_arch = "x86_64")]
use linked::engine::linked::run;
use linked::numbers::*;
use linked::run::{Lent, Run, RESULT_WORDS};
use order::{first_due, Defect};
use second::limits::{DEPTH, INDEX, NODE_WORDS, RESULT_NODES, SUBJECT_NODES};
use second::seed::{result_at_limit, Rng, Term, RESULT_CASES};

/// The numbers that a run gives.
const NUMBERS: [u32; 11] = [
    DONE,
    TABLE_NOT_GOOD,
    TOO_MANY_WORDS,
    TOO_DEEP,
    METAVARIABLE_IN_SUBJECT,
    CODE_DOES_NOT_PASS,
    MATCH_FAILS,
    RESULT_TOO_LARGE,
    RESULT_TOO_DEEP,
    RESULT_INDEX_TOO_HIGH,
    WORKING_TABLE_SHORT,
];

#[test]
fn reed_run_does_what_the_second_implementation_does() {
    let tally = compare(&KINDS);
    print!("reed_run: {tally}");
    assert!(tally.calls() >= share_of(500_000));
    for number in NUMBERS {
        let times = tally.times(number);
        assert!(times >= share_of(1_000), "{number} came {times} times");
    }
    // Last, since it ends the test if the run writes what it must not.
    #[cfg(target_arch = "x86_64")]
    runs_empty_slices();
}

/// An empty slice's pointer need not point to memory.
#[cfg(target_arch = "x86_64")]
fn runs_empty_slices() {
    use second::limits::WORKING_WORDS;
    let code = [2, 8, 0, 0];
    let mut working = vec![1; WORKING_WORDS];
    for (code, subject, number) in [
        (&[][..], &[][..], CODE_DOES_NOT_PASS),
        (&code[..], &[][..], TABLE_NOT_GOOD),
        (&code, &[0, 0], RESULT_TOO_LARGE),
    ] {
        let refused = |number| second::Answer { number, words: 0 };
        assert_eq!(run(code, subject, &mut working, &mut []), refused(number));
        assert_eq!(run(code, subject, &mut [], &mut []), refused(WORKING_TABLE_SHORT));
    }
}

const MADE: &[u32] = &[DONE];
const SHORT: &[u32] = &[WORKING_TABLE_SHORT];
const TOO_LARGE: &[u32] = &[RESULT_TOO_LARGE];
const NOT_GOOD: &[u32] = &[TABLE_NOT_GOOD];

/// First come the slips that, unseen, would spoil the test's own memory later.
const KINDS: [Kind<Run>; 80] = [
    Kind::new("working table short", SHORT, 4_000, |rng| short(rng, compiled)),
    Kind::new("working table short, foreign", SHORT, 2_000, |rng| short(rng, foreign)),
    Kind::new("working table of every short length", SHORT, 24, |rng| {
        lent::every_working_short(rng, compiled_short)
    }),
    Kind::new("result table short", TOO_LARGE, 3_000, |rng| result_short(rng, compiled)),
    Kind::new("result table short, foreign", TOO_LARGE, 2_000, |rng| result_short(rng, foreign)),
    Kind::new("result table of every small length", &[0, 13], 600, |rng| {
        every_length(rng, compiled_short)
    }),
    Kind::new("result table of every small length, foreign", &[0, 13], 600, |rng| {
        every_length(rng, foreign_short)
    }),
    // Compiled.
    Kind::new("compiled, matching", &[0, 13], 30_000, |rng| one(rng, compiled)).or_rarely(&[14]),
    Kind::new("compiled, short, matching", MADE, 40_000, |rng| one(rng, compiled_short))
        .or_rarely(&[13, 14]),
    Kind::new("compiled, a leaf changed", &[0, 12, 13], 5_000, |rng| {
        changed(rng, compiled, other_leaf)
    })
    .or_rarely(&[14]),
    Kind::new("compiled, short, a leaf changed", &[0, 12], 10_000, |rng| {
        changed(rng, compiled_short, other_leaf)
    })
    .or_rarely(&[13, 14]),
    Kind::new("compiled, nearly matching", &[0, 1, 4, 12, 13], 8_000, |rng| {
        changed(rng, compiled, near)
    })
    .or_rarely(&[3, 14]),
    Kind::new("compiled, any subject", &[0, 12], 3_000, |rng| changed(rng, compiled_short, on_any))
        .or_rarely(&[13, 14, 15]),
    Kind::new("compiled, high indices", &[0, 12, 13], 5_000, |rng| one(rng, compiled_high))
        .or_rarely(&[14, 15]),
    Kind::new("much of one thing, matching", &[0, 13], 6_000, |rng| one(rng, compiled_much))
        .or_rarely(&[14]),
    Kind::new("much of one thing, a leaf changed", &[0, 12, 13], 4_000, |rng| {
        changed(rng, compiled_much, other_leaf)
    })
    .or_rarely(&[14]),
    Kind::new("much of one thing, nearly", &[0, 1, 4, 12, 13], 3_000, |rng| {
        changed(rng, compiled_much, near)
    })
    .or_rarely(&[3, 14]),
    Kind::new("as large as can be, matching", MADE, 200, |rng| one(rng, compiled_large))
        .or_rarely(&[13, 14]),
    Kind::new("as large as can be, a leaf changed", &[0, 12], 200, |rng| {
        changed(rng, compiled_large, other_leaf)
    })
    .or_rarely(&[13, 14]),
    Kind::new("compiled, damaged", &[0, 11, 12], 3_000, |rng| changed(rng, compiled, damaged))
        .or_rarely(&[13, 14]),
    // Foreign.
    Kind::new("foreign", &[0, 12, 13], 40_000, |rng| one(rng, foreign)).or_rarely(&[14, 15]),
    Kind::new("foreign, another subject for it", &[0, 12], 30_000, |rng| one(rng, foreign_again))
        .or_rarely(&[13, 14, 15]),
    Kind::new("foreign, a leaf changed", &[0, 12], 8_000, |rng| changed(rng, foreign, other_leaf))
        .or_rarely(&[13, 14, 15]),
    Kind::new("foreign, nearly matching", &[0, 1, 4, 12], 6_000, |rng| changed(rng, foreign, near))
        .or_rarely(&[3, 13, 14, 15]),
    Kind::new("foreign, damaged", &[0, 11, 12], 3_000, |rng| changed(rng, foreign, damaged))
        .or_rarely(&[13, 14, 15]),
    Kind::new("foreign, another operand", &[0, 11, 12], 6_000, |rng| {
        changed(rng, foreign, other_operand)
    })
    .or_rarely(&[13, 14, 15]),
    Kind::new("at an edge of the check", MADE, 1_000, |rng| one(rng, edge)),
    Kind::new("over an edge of the check", &[11], 1_000, |rng| one(rng, over_edge)),
    Kind::new("at an edge, nearly matching", &[0, 1, 3, 4, 12], 1_000, |rng| {
        changed(rng, edge, near)
    })
    .or_rarely(&[13, 14]),
    Kind::new("the check's own cases", &[0, 3, 12, 13, 14], 15_000, |rng| one(rng, check_case))
        .or_rarely(&[15]),
    Kind::new("the check's own cases, nearly", &[0, 1, 3, 4, 12, 14], 5_000, |rng| {
        changed(rng, check_case, near)
    })
    .or_rarely(&[13, 15]),
    Kind::new("a variable that a CHECK lists", &[MATCH_FAILS], 3_000, |rng| {
        one(rng, |rng| checked(rng, true))
    }),
    Kind::new("a variable that a CHECK does not list", MADE, 3_000, |rng| {
        one(rng, |rng| checked(rng, false))
    }),
    Kind::new("one variable, compared and replaced", MADE, 3_000, |rng| {
        one(rng, |rng| one_keyed(rng, false))
    }),
    Kind::new("one variable, another one wanted", &[MATCH_FAILS], 2_000, |rng| {
        one(rng, |rng| one_keyed(rng, true))
    }),
    // Subjects.
    Kind::new("1: every cut", NOT_GOOD, 200, |rng| refused(rng, bad::every_cut)),
    Kind::new("1: words after", NOT_GOOD, 2_000, |rng| refused(rng, bad::words_after)),
    Kind::new("1: no such node", NOT_GOOD, 3_000, |rng| refused(rng, bad::no_such_node)),
    Kind::new("1: another count", NOT_GOOD, 3_000, |rng| refused(rng, bad::another_count)),
    Kind::new("2: too many words", &[TOO_MANY_WORDS], 500, |rng| refused(rng, bad::too_long)),
    Kind::new("3: too deep", &[TOO_DEEP], 2_000, |rng| refused(rng, bad::too_deep)),
    Kind::new("4: metavariable", &[METAVARIABLE_IN_SUBJECT], 3_000, |rng| {
        refused(rng, bad::metavariable)
    }),
    Kind::new("subject of depth 64", &[0, 12], 2_000, |rng| {
        let case = compiled_short(rng);
        let subject = bad::with_depth(rng, &case, DEPTH);
        vec![lent::with_room(rng, &Case { subject, ..case })]
    })
    .or_rarely(&[13, 14]),
    Kind::new("subject of 4,096 nodes", MADE, 100, |rng| handed_on(rng, SUBJECT_NODES)),
    Kind::new("subject of 4,097 nodes", &[TOO_MANY_WORDS], 100, |rng| {
        handed_on(rng, SUBJECT_NODES + 1)
    }),
    // Results at both sides of each limit.
    Kind::new("4,096 nodes", MADE, 200, |rng| at_limit(rng, |rng| results::nodes(rng, 4_096))),
    Kind::new("4,097 nodes", TOO_LARGE, 200, |rng| at_limit(rng, |rng| results::nodes(rng, 4_097))),
    Kind::new("as many nodes as half the table", MADE, 1_000, |rng| half(rng, 0)),
    Kind::new("a node more than half the table", TOO_LARGE, 1_000, |rng| half(rng, 1)),
    Kind::new("nodes by the product", TOO_LARGE, 500, |rng| at_limit(rng, results::product)),
    Kind::new("exponential, within the limit", MADE, 100, |rng| {
        let levels = rng.between(1, 11);
        let cases = results::exponential(rng, levels);
        on_each(rng, &cases)
    }),
    Kind::new("exponential", TOO_LARGE, 200, |rng| {
        let levels = *rng.pick(&[12, 13, 20, 31, 32, 33, 48, 63, 64]);
        let cases = results::exponential(rng, levels);
        on_each(rng, &cases)
    }),
    Kind::new("depth 64", MADE, 1_000, |rng| at_limit(rng, |rng| results::depth(rng, DEPTH))),
    Kind::new("depth 65", &[RESULT_TOO_DEEP], 1_000, |rng| {
        at_limit(rng, |rng| results::depth(rng, DEPTH + 1))
    }),
    Kind::new("64 bodies over an entry 63 deep", &[RESULT_TOO_DEEP], 200, |rng| {
        on_whole(rng, |rng| results::deep_bodies(rng, DEPTH - 1))
    }),
    Kind::new("64 bodies over an entry 2 deep", &[RESULT_TOO_DEEP], 200, |rng| {
        on_whole(rng, |rng| results::deep_bodies(rng, 2))
    }),
    Kind::new("64 bodies over an entry 1 deep", MADE, 200, |rng| {
        on_whole(rng, |rng| results::deep_bodies(rng, 1))
    }),
    Kind::new("64 bodies, deep, a short table", TOO_LARGE, 200, |rng| {
        let cases = results::deep_bodies(rng, DEPTH - 1);
        let lent = Lent::result(NODE_WORDS * 3_000, RESULT_WORDS);
        cases.iter().map(|case| Run::new(rng, &case.code, &case.subject, lent)).collect()
    }),
    Kind::new("index 65,535", MADE, 1_000, |rng| at_limit(rng, |rng| results::index(rng, INDEX))),
    Kind::new("index 65,536", &[RESULT_INDEX_TOO_HIGH], 1_000, |rng| {
        at_limit(rng, |rng| results::index(rng, INDEX + 1))
    }),
    Kind::new("an index higher still", &[RESULT_INDEX_TOO_HIGH], 500, |rng| {
        at_limit(rng, |rng| {
            let index = INDEX + rng.between(1, 40) as u32;
            vec![results::moved(rng, index)]
        })
    }),
    Kind::new("EQI to 65,535", MADE, 500, |rng| at_limit(rng, |rng| results::compared(rng, INDEX))),
    Kind::new("EQI past 65,535, before a symbol", &[MATCH_FAILS], 1_000, |rng| {
        at_limit(rng, |rng| {
            let index = INDEX + rng.between(1, 40) as u32;
            results::compared(rng, index)
        })
    }),
    Kind::new("65,535 as it is", MADE, 500, |rng| at_limit(rng, results::highest_kept)),
    Kind::new("bodies that never run", MADE, 500, |rng| at_limit(rng, results::never_run)),
    Kind::new("the second implementation's at a limit", &[0, 14, 15], 500, |rng| known(rng, false)),
    Kind::new("the same past it", &[13, 14, 15], 500, |rng| known(rng, true)),
    // The first of several.
    Kind::new("16 before all else", SHORT, 200, |rng| ordered(rng, Defect::WorkingShort)),
    Kind::new("11 before what follows", &[11], 200, |rng| ordered(rng, Defect::CodeDoesNotPass)),
    Kind::new("2 before what follows", &[2], 200, |rng| ordered(rng, Defect::SubjectTooLong)),
    Kind::new("1 before what follows", &[1], 300, |rng| ordered(rng, Defect::SubjectNotGood)),
    Kind::new("3 before what follows", &[3], 300, |rng| ordered(rng, Defect::SubjectTooDeep)),
    Kind::new("4 before what follows", &[4], 400, |rng| ordered(rng, Defect::SubjectMetavariable)),
    Kind::new("12 before what follows", &[12], 400, |rng| ordered(rng, Defect::MatchFails)),
    Kind::new("13 before what follows", &[13], 500, |rng| ordered(rng, Defect::ResultTooLarge)),
    Kind::new("14 before 15", &[14], 500, |rng| ordered(rng, Defect::ResultTooDeep)),
    Kind::new("15", &[15], 500, |rng| ordered(rng, Defect::IndexTooHigh)),
    Kind::new("none of these", MADE, 500, |rng| vec![order::run(rng, &[])]),
    // Anything.
    Kind::new("any words", &[0, 1, 2, 11], 2_000, |rng| {
        let (code, subject) = (words(rng), words(rng));
        let short = Case::new(vec![2, 8, 0, 0], subject.clone());
        vec![lent::with_room(rng, &Case::new(code, subject)), lent::with_room(rng, &short)]
    }),
    Kind::new("small subjects", &[0, 1, 4, 12], 40_000, small_subjects),
];

/// Makes code with a subject.
type Make = fn(&mut Rng) -> Case;

fn one(rng: &mut Rng, make: Make) -> Vec<Run> {
    let case = make(rng);
    vec![lent::with_room(rng, &case)]
}

/// One case with this change, several times.
fn changed(rng: &mut Rng, make: Make, change: fn(&mut Rng, Case) -> Case) -> Vec<Run> {
    const TIMES: usize = 2;
    let case = make(rng);
    let cases: Vec<Case> = (0..TIMES).map(|_| change(rng, case.clone())).collect();
    cases.iter().map(|case| lent::with_room(rng, case)).collect()
}

fn short(rng: &mut Rng, make: Make) -> Vec<Run> {
    let case = make(rng);
    vec![lent::working_short(rng, &case)]
}

fn result_short(rng: &mut Rng, make: Make) -> Vec<Run> {
    let case = make(rng);
    lent::result_short(rng, &case)
}

fn every_length(rng: &mut Rng, make: Make) -> Vec<Run> {
    let case = make(rng);
    lent::every_length(rng, &case)
}

/// Code that passes on each of these subjects.
fn refused(rng: &mut Rng, subjects: fn(&mut Rng, &Case) -> Vec<Vec<u32>>) -> Vec<Run> {
    let case = if rng.percent(50) { compiled_short(rng) } else { foreign_short(rng) };
    let of_code = |subject| Case { code: case.code.clone(), subject };
    let cases: Vec<Case> = subjects(rng, &case).into_iter().map(of_code).collect();
    cases.iter().map(|case| lent::with_room(rng, case)).collect()
}

/// A subject of so many nodes, handed on as it is.
fn handed_on(rng: &mut Rng, nodes: usize) -> Vec<Run> {
    let subject = Term::of_nodes(rng.below(9) as u32, nodes).words();
    let codes = [&[4, 2, 12, 0][..], &[4, 2, 13, 0, 64, 0]];
    codes.map(|code| lent::whole(rng, &Case::new(code.to_vec(), subject.clone()))).into()
}

/// Each of these with room for the longest result, or a little more.
fn at_limit(rng: &mut Rng, cases: fn(&mut Rng) -> Vec<Case>) -> Vec<Run> {
    let cases = cases(rng);
    on_each(rng, &cases)
}

fn on_each(rng: &mut Rng, cases: &[Case]) -> Vec<Run> {
    let with_more = |rng: &mut Rng, case: &Case| {
        let words = lent::words_of(case).unwrap_or(RESULT_WORDS + 1);
        let result = words.max(if rng.percent(20) { RESULT_WORDS + 2 } else { 400 });
        Run::new(rng, &case.code, &case.subject, Lent::result(result, words))
    };
    cases.iter().map(|case| with_more(rng, case)).collect()
}

fn on_whole(rng: &mut Rng, cases: fn(&mut Rng) -> Vec<Case>) -> Vec<Run> {
    cases(rng).iter().map(|case| lent::whole(rng, case)).collect()
}

/// Results of up to a hundred nodes, with a table for so many nodes fewer, also of an odd length.
fn half(rng: &mut Rng, fewer: usize) -> Vec<Run> {
    let nodes = rng.between(45, 100);
    let length = NODE_WORDS * (nodes - fewer);
    let lengths = [length, length + 1];
    let mut runs = Vec::new();
    for case in results::nodes(rng, nodes) {
        let lent = Lent::result(*rng.pick(&lengths), NODE_WORDS * nodes);
        runs.push(Run::new(rng, &case.code, &case.subject, lent));
    }
    assert!(length < NODE_WORDS * RESULT_NODES);
    runs
}

/// The cases that the second implementation's tests know.
fn known(rng: &mut Rng, over: bool) -> Vec<Run> {
    let mut runs = Vec::new();
    for kind in 0..RESULT_CASES {
        let case = result_at_limit(rng, kind, over);
        let lent = Lent::result(case.result_words, RESULT_WORDS);
        runs.push(Run::new(rng, &code_of(&case.rule), &case.subject, lent));
    }
    runs
}

fn ordered(rng: &mut Rng, first: Defect) -> Vec<Run> {
    first_due(rng, first).iter().map(|defects| order::run(rng, defects)).collect()
}

/// Words of any kind, many of them small, so that they look like tables or code.
fn words(rng: &mut Rng) -> Vec<u32> {
    let most = *rng.pick(&[1, 3, 8, 60, 700, 9_000]);
    let any = [0, 0, 1, 8, 13, 64, 65_536, 65_537, 131_072, 196_608, u32::MAX];
    let kind = rng.below(3);
    let word = |rng: &mut Rng| match kind {
        0 => rng.bits() as u32,
        1 => rng.below(14) as u32,
        _ => *rng.pick(&any),
    };
    (0..rng.below(most)).map(|_| word(rng)).collect()
}

/// A few nodes of any kind, mostly no table, for code that takes what comes.
fn small_subjects(rng: &mut Rng) -> Vec<Run> {
    let node = |rng: &mut Rng| match rng.below(9) {
        0..=2 => [rng.below(3) as u32, 0],
        3 | 4 => [196_608, 1],
        5 => [131_072 + rng.below(2) as u32, 0],
        _ => [65_536 + rng.below(2) as u32, rng.below(3) as u32],
    };
    let subject = (0..rng.between(1, 5)).flat_map(|_| node(rng)).collect();
    let codes: [&[u32]; 5] = [
        &[4, 2, 12, 0],
        &[4, 2, 9, 13, 0, 65, 0, 10],
        &[1, 4, 2, 13, 0, 63, 1, 0, 3, 8, 1, 0],
        &[1, 3, 1, 0, 4, 2, 13, 0, 63, 0],
        &[0, 0, 2, 4, 2, 7, 0, 64, 0, 2, 13, 0, 64, 0],
    ];
    let case = Case::new(rng.pick(&codes).to_vec(), subject);
    vec![lent::with_room(rng, &case)]
}
