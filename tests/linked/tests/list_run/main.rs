//! `reed_list_run` and the second implementation's `list_run` on the same rules, plans and tables:
//! the same number, words, rewrites and flag, a working table of zeros, and guards, rules and subject
//! left alone.

#[path = "../compile/accepted.rs"]
#[allow(dead_code)]
mod accepted;
#[path = "../run/bad.rs"]
mod bad;
mod cases;
mod examples;
mod lent;
mod limits;
mod order;
#[path = "../compile/spoilt.rs"]
#[allow(dead_code)]
mod spoilt;
mod tables;

use cases::*;
use linked::call::Answer;
use linked::code::{CHECK, ISABST, NEXT, SET};
use linked::compare::{compare, share_of, Kind};
#[cfg(target_arch = "x86_64")]
use linked::engine::linked::list_run;
use linked::list_run::{Lent, ListRun, RESULT_WORDS};
use linked::numbers::*;
use order::{first_due, Defect};
use second::limits::{CODE_WORDS, REWRITES};
use second::seed::{Rng, Term};

/// The numbers that a list run gives.
const NUMBERS: [u32; 11] = [
    DONE,
    TABLE_NOT_GOOD,
    TOO_MANY_WORDS,
    TOO_DEEP,
    METAVARIABLE_IN_SUBJECT,
    CODE_DOES_NOT_PASS,
    RESULT_TOO_LARGE,
    RESULT_TOO_DEEP,
    RESULT_INDEX_TOO_HIGH,
    WORKING_TABLE_SHORT,
    LIST_TOO_LONG,
];

#[test]
fn reed_list_run_does_what_the_second_implementation_does() {
    let tally = compare(&KINDS);
    print!("reed_list_run: {tally}");
    assert!(tally.calls() >= share_of(100_000));
    for number in NUMBERS {
        let times = tally.times(number);
        assert!(times >= share_of(1_000), "{number} came {times} times");
    }
    assert_eq!(tally.times(MATCH_FAILS), 0);
    // Last, since it ends the test if the list run writes what it must not.
    #[cfg(target_arch = "x86_64")]
    runs_empty_slices();
}

/// An empty slice's pointer need not point to memory.
#[cfg(target_arch = "x86_64")]
fn runs_empty_slices() {
    use second::limits::LIST_WORKING_WORDS;
    let rules = [4, 2, 8, 0, 0];
    let mut working = vec![1; LIST_WORKING_WORDS];
    for (rules, subject, number) in [
        (&[][..], &[][..], TABLE_NOT_GOOD),
        (&rules[..], &[][..], TABLE_NOT_GOOD),
        (&[], &[0, 0], RESULT_TOO_LARGE),
        (&rules, &[0, 0], RESULT_TOO_LARGE),
    ] {
        let refused = |number| second::ListAnswer { number, words: 0, rewrites: 0, normal: 0 };
        assert_eq!(list_run(rules, subject, 1, &mut working, &mut []), refused(number));
        assert_eq!(list_run(rules, subject, 1, &mut [], &mut []), refused(WORKING_TABLE_SHORT));
        assert_eq!(list_run(rules, subject, 1_001, &mut [], &mut []), refused(LIST_TOO_LONG));
    }
}

const MADE: &[u32] = &[DONE];
const TOO_LARGE: &[u32] = &[RESULT_TOO_LARGE];
const NOT_GOOD: &[u32] = &[TABLE_NOT_GOOD];
const BAD_RULE: &[u32] = &[CODE_DOES_NOT_PASS];

// What must come of a kind besides its numbers.

fn rewritten(answer: &Answer) -> bool {
    answer[2] >= 2
}

fn normal(answer: &Answer) -> bool {
    answer[2] >= 1 && answer[3] == 1
}

fn not_normal(answer: &Answer) -> bool {
    answer[0] == DONE && answer[2] >= 1 && answer[3] == 0
}

fn idle(answer: &Answer) -> bool {
    answer[0] == DONE && answer[2] == 0 && answer[3] == 1
}

fn untouched(answer: &Answer) -> bool {
    answer[0] == DONE && answer[2] == 0 && answer[3] == 0
}

fn ten(answer: &Answer) -> bool {
    answer[2] >= 10
}

fn thousand(answer: &Answer) -> bool {
    answer[2] == REWRITES && answer[3] == 0
}

fn large(answer: &Answer) -> bool {
    answer[2] >= 1 && answer[1] > 2_000
}

const ALL_ENDS: &[fn(&Answer) -> bool] = &[rewritten, normal, not_normal, idle, untouched];
const ENDS: &[fn(&Answer) -> bool] = &[rewritten, normal, not_normal];

/// First come the slips that, unseen, would spoil the test's own memory later.
const KINDS: [Kind<ListRun>; 66] = [
    Kind::new("working table short", &[WORKING_TABLE_SHORT], 1_000, |rng| short(rng, feeding)),
    Kind::new("working table short, foreign", &[WORKING_TABLE_SHORT], 500, |rng| {
        short(rng, foreign)
    }),
    Kind::new("result table that just fits, or not", &[0, 13], 800, |rng| just(rng, feeding))
        .reaching(ENDS),
    Kind::new("the same, foreign", &[0, 13], 300, |rng| just(rng, foreign)).reaching(ENDS),
    Kind::new("the same, large parts", &[0, 13], 100, |rng| just(rng, large_parts))
        .reaching(&[rewritten, large]),
    Kind::new("result table of every small length", &[0, 13], 300, |rng| {
        every_length(rng, feeding)
    })
    .reaching(ENDS),
    // Rules that meet.
    Kind::new("rules that feed each other", &[0, 13], 10_000, |rng| one(rng, feeding))
        .or_rarely(&[14])
        .reaching(ALL_ENDS),
    Kind::new("the same on large plans", &[0, 13], 1_000, |rng| one(rng, feeding_large))
        .or_rarely(&[14])
        .reaching(&[ten, large, normal, not_normal]),
    Kind::new("31 and 32 of them", &[0, 13], 1_500, |rng| one(rng, feeding_many))
        .or_rarely(&[14])
        .reaching(ENDS),
    Kind::new("rules as they come, planted", &[0, 13], 5_000, |rng| one(rng, instances))
        .or_rarely(&[14, 15])
        .reaching(ALL_ENDS),
    Kind::new("one root symbol", MADE, 3_000, |rng| one(rng, one_root))
        .or_rarely(&[13, 14])
        .reaching(ALL_ENDS),
    Kind::new("names and counts that are near", MADE, 3_000, |rng| one(rng, near_names))
        .or_rarely(&[13, 14])
        .reaching(ALL_ENDS),
    Kind::new("rules above match then", MADE, 4_000, |rng| one(rng, above)).reaching(ENDS),
    Kind::new("the same by a comparison or CHECK", MADE, 4_000, |rng| one(rng, above_compared))
        .reaching(ENDS),
    Kind::new("the same from far below", MADE, 1_500, |rng| one(rng, far_above)).reaching(ENDS),
    Kind::new("the same under bindings", MADE, 2_000, |rng| one(rng, above_bound))
        .or_rarely(&[14])
        .reaching(ENDS),
    Kind::new("moved from argument to argument", MADE, 2_000, |rng| one(rng, moved))
        .or_rarely(&[14])
        .reaching(&[ten, normal, not_normal]),
    Kind::new("beta and eta", &[0, 13], 5_000, |rng| one(rng, lambda))
        .or_rarely(&[14])
        .reaching(ALL_ENDS),
    Kind::new("large parts removed and doubled", &[0, 13], 800, |rng| one(rng, large_parts))
        .or_rarely(&[14])
        .reaching(&[ten, large, normal, not_normal]),
    Kind::new("down to depth 64", MADE, 3_000, |rng| one(rng, deep))
        .or_rarely(&[14])
        .reaching(&[ten, normal, not_normal]),
    Kind::new("never ends", MADE, 500, |rng| one(rng, endless)).reaching(&[thousand, untouched]),
    // Foreign.
    Kind::new("foreign", &[0, 13], 7_000, |rng| one(rng, foreign))
        .or_rarely(&[14, 15])
        .reaching(ALL_ENDS),
    Kind::new("root's own tests first", &[0, 13], 4_000, |rng| one(rng, begun_rules))
        .or_rarely(&[14])
        .reaching(ALL_ENDS),
    Kind::new("begins with NEXT", MADE, 1_000, |rng| one(rng, |rng| beginning(rng, NEXT)))
        .or_rarely(&[13, 14])
        .reaching(&[rewritten, not_normal, ten]),
    Kind::new("begins with SET", &[0, 13, 14], 2_000, |rng| one(rng, |rng| beginning(rng, SET)))
        .reaching(&[rewritten, not_normal, ten]),
    Kind::new("begins with CHECK", &[0, 14], 2_000, |rng| one(rng, |rng| beginning(rng, CHECK)))
        .or_rarely(&[13])
        .reaching(ENDS),
    Kind::new("begins with ISABST", &[0, 14], 2_000, |rng| one(rng, |rng| beginning(rng, ISABST)))
        .or_rarely(&[13])
        .reaching(ENDS),
    Kind::new("at an edge of the check", MADE, 500, |rng| one(rng, edge))
        .or_rarely(&[13, 14])
        .reaching(&[normal]),
    // Tables of rules.
    Kind::new("no rule", MADE, 500, |rng| one(rng, |rng| tables::so_many(rng, 0)))
        .reaching(&[idle]),
    Kind::new("31 rules", MADE, 500, |rng| one(rng, |rng| tables::so_many(rng, 31)))
        .or_rarely(&[13, 14])
        .reaching(ENDS),
    Kind::new("32 rules", MADE, 500, |rng| one(rng, |rng| tables::so_many(rng, 32)))
        .or_rarely(&[13, 14])
        .reaching(ENDS),
    Kind::new("33 rules", &[LIST_TOO_LONG], 500, |rng| one(rng, |rng| tables::so_many(rng, 33))),
    Kind::new("more than 33", &[LIST_TOO_LONG], 200, |rng| {
        one(rng, |rng| {
            let count = rng.between(34, 90);
            tables::so_many(rng, count)
        })
    }),
    Kind::new("the last one cut", BAD_RULE, 1_000, |rng| {
        let count = rng.between(1, 6);
        cut(rng, count)
    }),
    Kind::new("32 with the last one cut", BAD_RULE, 500, |rng| cut(rng, 32)),
    Kind::new("33 with the last one cut", &[LIST_TOO_LONG], 500, |rng| cut(rng, 33)),
    Kind::new("cut at every place", &[0, 11], 12, |rng| {
        let case = feeding(rng);
        let cut = tables::every_cut(&case);
        cut.iter().map(|table| of_table(rng, [&table[0], &table[1]], &case)).collect()
    })
    .or_rarely(&[13, 14]),
    Kind::new("a count that is too high", BAD_RULE, 800, |rng| spoilt(rng, tables::high_count)),
    Kind::new("a rule of no words", BAD_RULE, 500, |rng| spoilt(rng, tables::no_words)),
    Kind::new("a rule that does not pass", BAD_RULE, 1_000, |rng| spoilt(rng, tables::bad_rule)),
    Kind::new("a rule of 4,096 words", MADE, 100, |rng| {
        spoilt(rng, |rng, case| tables::long_rule(rng, case, CODE_WORDS))
    })
    .or_rarely(&[13, 14]),
    Kind::new("a rule of 4,097 words", BAD_RULE, 100, |rng| {
        spoilt(rng, |rng, case| tables::long_rule(rng, case, CODE_WORDS + 1))
    }),
    Kind::new("1,000 rewrites", &[0], 200, |rng| rewrites(rng, REWRITES)).reaching(&[thousand]),
    Kind::new("1,001 rewrites", &[LIST_TOO_LONG], 300, |rng| rewrites(rng, REWRITES + 1)),
    Kind::new("more than 1,001 rewrites", &[LIST_TOO_LONG], 300, |rng| {
        let many = *rng.pick(&[1_002, 1_024, 65_536, 1 << 31, u32::MAX]);
        rewrites(rng, many)
    }),
    // Subjects.
    Kind::new("1: every cut", NOT_GOOD, 30, |rng| refused(rng, bad::every_cut)),
    Kind::new("1: words after", NOT_GOOD, 500, |rng| refused(rng, bad::words_after)),
    Kind::new("1: no such node", NOT_GOOD, 1_000, |rng| refused(rng, bad::no_such_node)),
    Kind::new("1: another count", NOT_GOOD, 1_000, |rng| refused(rng, bad::another_count)),
    Kind::new("2: too many words", &[TOO_MANY_WORDS], 350, |rng| refused(rng, bad::too_long)),
    Kind::new("3: too deep", &[TOO_DEEP], 600, |rng| refused(rng, bad::too_deep)),
    Kind::new("4: metavariable", &[METAVARIABLE_IN_SUBJECT], 1_000, |rng| {
        refused(rng, bad::metavariable)
    }),
    // Both sides of each limit, after several rewrites.
    Kind::new("13: nodes and the table", &[0, 13], 700, |rng| table_of_words(rng, limits::nodes))
        .reaching(&[ten, normal]),
    Kind::new("13: a plan between", &[0, 13], 700, |rng| table_of_words(rng, limits::between))
        .reaching(&[ten, normal]),
    Kind::new("13: 4,096 nodes", MADE, 100, |rng| one(rng, |rng| limits::all_nodes(rng, 4_096)))
        .reaching(&[ten, large]),
    Kind::new("13: 4,097 nodes", TOO_LARGE, 100, |rng| {
        one(rng, |rng| limits::all_nodes(rng, 4_097))
    }),
    Kind::new("13: exponential", TOO_LARGE, 200, |rng| one(rng, limits::exponential)),
    Kind::new("14: depth 64", MADE, 1_000, |rng| at_depth(rng, 0)).reaching(&[ten, not_normal]),
    Kind::new("14: depth 65", &[RESULT_TOO_DEEP], 1_000, |rng| at_depth(rng, 1)),
    Kind::new("15: index 65,535", MADE, 1_000, |rng| one(rng, |rng| limits::index(rng, 0)))
        .reaching(&[ten, not_normal]),
    Kind::new("15: index 65,536", &[RESULT_INDEX_TOO_HIGH], 1_000, |rng| {
        one(rng, |rng| limits::index(rng, 1))
    }),
    Kind::new("13, 14 and 15 at once", &[0, 13, 14, 15], 2_000, |rng| {
        let breaks = [rng.percent(50), rng.percent(50), rng.percent(50)];
        let (case, words) = limits::several(rng, breaks);
        vec![lent::call(rng, &case, Lent::result(words, words + 4))]
    }),
    // The first of several.
    Kind::new(
        "each refusal before what follows",
        &[1, 2, 3, 4, 11, 13, 14, 15, 16, 37],
        80,
        |rng| Defect::ALL.iter().flat_map(|first| ordered(rng, *first)).collect(),
    ),
    Kind::new("none of these", MADE, 500, |rng| vec![order::call(rng, &[])]).reaching(&[normal]),
    // Anything.
    Kind::new("any words", &[1, 2, 11, 37], 1_000, any_words).or_rarely(&[0, 4, 13]),
    Kind::new("small subjects", &[0, 1, 4], 4_000, small_subjects).reaching(&[rewritten]),
];

/// Makes a list of rules with a plan.
type Make = fn(&mut Rng) -> Case;

fn one(rng: &mut Rng, make: Make) -> Vec<ListRun> {
    let case = make(rng);
    vec![lent::with_room(rng, &case)]
}

fn short(rng: &mut Rng, make: Make) -> Vec<ListRun> {
    let case = make(rng);
    vec![lent::working_short(rng, &case)]
}

fn just(rng: &mut Rng, make: Make) -> Vec<ListRun> {
    let case = make(rng);
    lent::just_room(rng, &case)
}

fn every_length(rng: &mut Rng, make: Make) -> Vec<ListRun> {
    let case = make(rng);
    lent::every_length(rng, &case)
}

/// A table of rules that may be cut, what was cut away behind it.
fn of_table(rng: &mut Rng, table: [&[u32]; 2], case: &Case) -> ListRun {
    let lent = Lent::result(RESULT_WORDS, 0);
    ListRun::cut(rng, table, &case.subject, case.rewrites, lent)
}

fn cut(rng: &mut Rng, count: usize) -> Vec<ListRun> {
    let case = tables::so_many(rng, count);
    let [table, behind] = tables::last_cut(rng, &case);
    vec![of_table(rng, [&table, &behind], &case)]
}

/// A list with one thing changed in its table.
fn spoilt(rng: &mut Rng, table: fn(&mut Rng, &Case) -> Vec<u32>) -> Vec<ListRun> {
    let case = feeding(rng);
    let table = table(rng, &case);
    vec![of_table(rng, [&table, &[]], &case)]
}

/// A list that never ends, for so many rewrites.
fn rewrites(rng: &mut Rng, rewrites: u32) -> Vec<ListRun> {
    let case = Case { rewrites, ..endless(rng) };
    vec![of_table(rng, [&case.table(), &[]], &case)]
}

/// Rules that pass on each of these subjects.
fn refused(rng: &mut Rng, subjects: fn(&mut Rng, &Case) -> Vec<Vec<u32>>) -> Vec<ListRun> {
    let case = if rng.percent(70) { feeding(rng) } else { begun_rules(rng) };
    let all = subjects(rng, &case);
    let with = |subject| Case { subject, ..case.clone() };
    all.into_iter().map(|subject| lent::with_room(rng, &with(subject))).collect()
}

/// A table that just holds the largest plan, and one that does not by a word or by a node; one that
/// holds all but that.
fn table_of_words(rng: &mut Rng, make: fn(&mut Rng) -> limits::Sized) -> Vec<ListRun> {
    let (case, words) = make(rng);
    assert_eq!(lent::enough(&case), Some(words));
    let lengths = [words, words + 1, words - 1, words - 2];
    lengths.map(|length| lent::call(rng, &case, Lent::result(length, words))).into()
}

fn at_depth(rng: &mut Rng, over: u32) -> Vec<ListRun> {
    let cases = [limits::depth(rng, over), limits::depth_of_entry(rng, over)];
    cases.iter().map(|case| lent::with_room(rng, case)).collect()
}

fn ordered(rng: &mut Rng, first: Defect) -> Vec<ListRun> {
    first_due(rng, first).iter().map(|defects| order::call(rng, defects)).collect()
}

/// Words of any kind, many of them small, so that they look like rules or tables.
fn any_words(rng: &mut Rng) -> Vec<ListRun> {
    let words = |rng: &mut Rng| -> Vec<u32> {
        let most = *rng.pick(&[1, 3, 8, 60, 700, 9_000]);
        let any = [0, 0, 1, 4, 8, 13, 64, 65_536, 65_537, 131_072, 196_608, u32::MAX];
        let kind = rng.below(3);
        let word = |rng: &mut Rng| match kind {
            0 => rng.bits() as u32,
            1 => rng.below(14) as u32,
            _ => *rng.pick(&any),
        };
        (0..rng.below(most)).map(|_| word(rng)).collect()
    };
    let (rules, subject) = (words(rng), words(rng));
    let rewrites = rng.below(1_010) as u32;
    let lent = Lent::result(*rng.pick(&[0, 5, 400]), RESULT_WORDS);
    let whole = [4, 2, 8, 0, 0];
    [&rules[..], &whole].map(|rules| ListRun::new(rng, rules, &subject, rewrites, lent)).into()
}

/// A few nodes of any kind, mostly no table, for rules that take what comes.
fn small_subjects(rng: &mut Rng) -> Vec<ListRun> {
    let node = |rng: &mut Rng| match rng.below(9) {
        0..=2 => [rng.below(3) as u32, 0],
        3 | 4 => [196_608, 1],
        5 => [131_072 + rng.below(2) as u32, 0],
        _ => [65_536 + rng.below(2) as u32, rng.below(3) as u32],
    };
    let subject = (0..rng.between(1, 5)).flat_map(|_| node(rng)).collect();
    let x = || Term::Meta(1, Vec::new());
    let all = [
        vec![4, 2, 12, 0],
        vec![1, 4, 2, 13, 0, 63, 1, 0, 3, 8, 1, 0],
        vec![1, 3, 1, 0, 4, 2, 13, 0, 63, 0],
        vec![0, 0, 2, 4, 2, 7, 0, 64, 0, 2, 13, 0, 64, 0],
        rule(&Term::leaf(0), &Term::leaf(1)),
        rule(&Term::Sym(1, vec![x()]), &x()),
        rule(&Term::Sym(1, vec![x(), x()]), &Term::Sym(0, vec![x()])),
    ];
    let count = rng.between(1, 3);
    let codes = rng.distinct(count, all.len()).iter().map(|n| all[*n as usize].clone()).collect();
    let case = Case { codes, subject, rewrites: rng.below(5) as u32 };
    vec![lent::with_room(rng, &case)]
}
