//! `reed_compile` and the second implementation's `compile` on the same rules and code tables: the
//! same number and count, the same words, and guards and sides left alone.

mod accepted;
mod anything;
mod examples;
mod lent;
mod limits;
mod order;
mod refused;
mod spoilt;

use linked::compare::{compare, share_of, Kind};
use linked::compile::Compile;
#[cfg(target_arch = "x86_64")]
use linked::engine::linked::compile;
use linked::numbers::*;
use order::{first_due, Defect};
use second::limits::{ARGUMENTS, BINDERS, DEPTH, METAVARIABLES, SIDE_NODES};
#[cfg(target_arch = "x86_64")]
use second::seed::Term;
use second::seed::{good_rule, Rng, Rule};

/// The numbers that a compiler gives.
const NUMBERS: [u32; 10] = [
    DONE,
    TABLE_NOT_GOOD,
    TOO_MANY_WORDS,
    TOO_DEEP,
    LEFT_ROOT_NO_SYMBOL,
    FREE_VARIABLE,
    ARGUMENTS_NOT_DISTINCT_VARIABLES,
    ABSENT_ON_LEFT,
    TOO_MANY_METAVARIABLES,
    CODE_TABLE_SHORT,
];

#[test]
fn reed_compile_does_what_the_second_implementation_does() {
    let tally = compare(&KINDS);
    print!("reed_compile: {tally}");
    assert!(tally.calls() >= share_of(100_000));
    for number in NUMBERS {
        let times = tally.times(number);
        assert!(times >= share_of(1_000), "{number} came {times} times");
    }
    // Last, since it ends the test if the compiler writes what it must not.
    #[cfg(target_arch = "x86_64")]
    compiles_empty_slices();
}

/// An empty slice's pointer need not point to memory; the sides may be the same memory.
#[cfg(target_arch = "x86_64")]
fn compiles_empty_slices() {
    let symbol = Term::leaf(5).words();
    for (left, right, number) in [
        (&[][..], &[][..], TABLE_NOT_GOOD),
        (&symbol[..], &[][..], TABLE_NOT_GOOD),
        (&symbol, &symbol, CODE_TABLE_SHORT),
    ] {
        assert_eq!(compile(left, right, &mut []), second::Answer { number, words: 0 });
    }
}

/// Enough room and one word less.
const ROOM_AND_NONE: &[u32] = &[DONE, CODE_TABLE_SHORT];

/// First come the slips that, unseen, would spoil the test's own memory later.
const KINDS: [Kind<Compile>; 49] = [
    Kind::new("code table one word short", &[CODE_TABLE_SHORT], 10_000, |rng| {
        one(rng, good_rule, lent::one_short)
    }),
    Kind::new("code table short", &[CODE_TABLE_SHORT], 5_000, |rng| {
        one(rng, good_rule, lent::short)
    }),
    Kind::new("code table of the code's length", &[DONE], 10_000, |rng| {
        one(rng, good_rule, lent::exactly)
    }),
    Kind::new("code table with room", &[DONE], 10_000, |rng| one(rng, good_rule, lent::with_room)),
    // Accepted.
    Kind::new("metavariables of one name", ROOM_AND_NONE, 2_000, |rng| {
        both(rng, accepted::same_name)
    }),
    Kind::new("sixteen metavariables", ROOM_AND_NONE, 2_000, |rng| {
        both(rng, accepted::sixteen_metavariables)
    }),
    Kind::new("metavariables repeated", ROOM_AND_NONE, 4_000, |rng| both(rng, accepted::repeated)),
    Kind::new("under many abstractions", ROOM_AND_NONE, 4_000, |rng| {
        both(rng, accepted::under_abstractions)
    }),
    Kind::new("bodies in bodies", ROOM_AND_NONE, 4_000, |rng| both(rng, accepted::nested_bodies)),
    Kind::new("a left side to itself", ROOM_AND_NONE, 2_000, |rng| both(rng, accepted::to_itself)),
    Kind::new("differences at their widest", ROOM_AND_NONE, 200, |rng| {
        all(rng, limits::differences)
    }),
    Kind::new("as large as can be", ROOM_AND_NONE, 20, |rng| all(rng, limits::large)),
    // Both sides of each limit.
    Kind::new("256 nodes", ROOM_AND_NONE, 200, |rng| {
        all(rng, |rng| limits::nodes(rng, SIDE_NODES))
    }),
    Kind::new("257 nodes", &[TOO_MANY_WORDS], 400, |rng| {
        refused_all(rng, |rng| limits::nodes(rng, SIDE_NODES + 1))
    }),
    Kind::new("depth 64", ROOM_AND_NONE, 400, |rng| all(rng, |rng| limits::depth(rng, DEPTH))),
    Kind::new("depth 65", &[TOO_DEEP], 1_000, |rng| {
        refused_all(rng, |rng| limits::depth(rng, DEPTH + 1))
    }),
    Kind::new("63 abstractions", ROOM_AND_NONE, 50, |rng| {
        all(rng, |rng| limits::abstractions(rng, BINDERS))
    }),
    Kind::new("64 abstractions", &[TOO_DEEP], 50, |rng| {
        refused_all(rng, |rng| limits::abstractions(rng, BINDERS + 1))
    }),
    Kind::new("16 metavariables", ROOM_AND_NONE, 400, |rng| {
        all(rng, |rng| limits::metavariables(rng, METAVARIABLES))
    }),
    Kind::new("17 metavariables", &[TOO_MANY_METAVARIABLES], 1_000, |rng| {
        refused_all(rng, |rng| limits::metavariables(rng, METAVARIABLES + 1))
    }),
    Kind::new("8 arguments", ROOM_AND_NONE, 200, |rng| {
        all(rng, |rng| limits::arguments(rng, ARGUMENTS))
    }),
    Kind::new("9 arguments", &[TABLE_NOT_GOOD], 200, |rng| {
        refused_all(rng, |rng| limits::arguments(rng, ARGUMENTS + 1))
    }),
    Kind::new("the highest index", ROOM_AND_NONE, 400, |rng| {
        all(rng, |rng| limits::indices(rng, 1))
    }),
    Kind::new("an index one too high", &[FREE_VARIABLE], 1_000, |rng| {
        refused_all(rng, |rng| limits::indices(rng, 0))
    }),
    // Refused for one thing.
    Kind::new("1: every cut", &[TABLE_NOT_GOOD], 100, refused::every_cut),
    Kind::new("1: words after", &[TABLE_NOT_GOOD], 2_000, refused::words_after),
    Kind::new("1: no such node", &[TABLE_NOT_GOOD], 4_000, refused::no_such_node),
    Kind::new("1: another count", &[TABLE_NOT_GOOD], 4_000, refused::another_count),
    Kind::new("2: too many words", &[TOO_MANY_WORDS], 1_000, refused::too_many_words),
    Kind::new("5: root no symbol", &[LEFT_ROOT_NO_SYMBOL], 1_000, refused::root_no_symbol),
    Kind::new("6: free variable", &[FREE_VARIABLE], 4_000, refused::free_variable),
    Kind::new("7: bad arguments", &[ARGUMENTS_NOT_DISTINCT_VARIABLES], 2_000, refused::arguments),
    Kind::new("8: absent on left", &[ABSENT_ON_LEFT], 4_000, refused::absent_on_left),
    Kind::new(
        "9: too many metavariables",
        &[TOO_MANY_METAVARIABLES],
        1_000,
        refused::metavariables,
    ),
    Kind::new(
        "8 or 9: among many metavariables",
        &[ABSENT_ON_LEFT, TOO_MANY_METAVARIABLES],
        4_000,
        refused::among_many,
    ),
    // The first of several.
    Kind::new("left 2 before all else", &[TOO_MANY_WORDS], 200, |rng| {
        first_due(rng, Defect::LeftTooLong)
    }),
    Kind::new("left 1 before what follows", &[TABLE_NOT_GOOD], 200, |rng| {
        first_due(rng, Defect::LeftNotGood)
    }),
    Kind::new("left 3 before what follows", &[TOO_DEEP], 200, |rng| {
        first_due(rng, Defect::LeftTooDeep)
    }),
    Kind::new("right 2 before what follows", &[TOO_MANY_WORDS], 200, |rng| {
        first_due(rng, Defect::RightTooLong)
    }),
    Kind::new("right 1 before what follows", &[TABLE_NOT_GOOD], 200, |rng| {
        first_due(rng, Defect::RightNotGood)
    }),
    Kind::new("right 3 before what follows", &[TOO_DEEP], 200, |rng| {
        first_due(rng, Defect::RightTooDeep)
    }),
    Kind::new("5 before what follows", &[LEFT_ROOT_NO_SYMBOL], 300, |rng| {
        first_due(rng, Defect::RootNoSymbol)
    }),
    Kind::new("left 6 before what follows", &[FREE_VARIABLE], 300, |rng| {
        first_due(rng, Defect::FreeOnLeft)
    }),
    Kind::new("right 6 before what follows", &[FREE_VARIABLE], 300, |rng| {
        first_due(rng, Defect::FreeOnRight)
    }),
    Kind::new("7 before what follows", &[ARGUMENTS_NOT_DISTINCT_VARIABLES], 400, |rng| {
        first_due(rng, Defect::BadArguments)
    }),
    Kind::new("8 before what follows", &[ABSENT_ON_LEFT], 500, |rng| {
        first_due(rng, Defect::AbsentOnLeft)
    }),
    Kind::new("9 before what follows", &[TOO_MANY_METAVARIABLES], 500, |rng| {
        first_due(rng, Defect::TooManyMetavariables)
    }),
    // Anything.
    Kind::new("short", &[0, 1, 5, 6, 7, 8, 10], 20_000, anything::short),
    Kind::new("damaged", &[0, 1, 2, 3, 5, 6, 7, 8, 9, 10], 20_000, anything::damaged),
];

/// One call on a rule.
fn one(
    rng: &mut Rng,
    rule: fn(&mut Rng) -> Rule,
    lent: fn(&mut Rng, &Rule) -> Compile,
) -> Vec<Compile> {
    let rule = rule(rng);
    vec![lent(rng, &rule)]
}

/// A rule with enough room, more, and one word less.
fn both(rng: &mut Rng, rule: fn(&mut Rng) -> Rule) -> Vec<Compile> {
    let rule = rule(rng);
    lent::both_sides(rng, &rule)
}

/// The same for each of these.
fn all(rng: &mut Rng, rules: fn(&mut Rng) -> Vec<Rule>) -> Vec<Compile> {
    rules(rng).iter().flat_map(|rule| lent::both_sides(rng, rule)).collect()
}

/// A call on each of these, which are refused whatever is lent.
fn refused_all(rng: &mut Rng, rules: fn(&mut Rng) -> Vec<Rule>) -> Vec<Compile> {
    rules(rng).iter().map(|rule| lent::at_any_length(rng, rule)).collect()
}
