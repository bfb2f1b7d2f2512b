//! `reed_check` and the second implementation's `check` on the same words: the same number, and
//! guards and code left alone.

#[path = "../compile/accepted.rs"]
mod accepted;
mod anything;
mod compiled;
mod damage;
mod limits;
mod misplaced;
mod parts;
mod twins;

use linked::check::Check;
use linked::compare::{compare, share_of, Kind};
#[cfg(target_arch = "x86_64")]
use linked::engine::linked::check;
use linked::numbers::{CODE_DOES_NOT_PASS, DONE};
use parts::Parts;
use second::limits::{ARGUMENTS, BINDERS, CODE_WORDS, CURRENT_TERMS, ENTRIES, INDEX, NESTING};
use second::seed::{damaged_code, edge_code, foreign_code, Rng, EDGES};

#[test]
fn reed_check_does_what_the_second_implementation_does() {
    let tally = compare(&KINDS);
    print!("reed_check: {tally}");
    assert!(tally.calls() >= share_of(1_000_000));
    for number in [DONE, CODE_DOES_NOT_PASS] {
        let times = tally.times(number);
        assert!(times >= share_of(100_000), "{number} came {times} times");
    }
    // An empty slice's pointer need not point to memory.
    #[cfg(target_arch = "x86_64")]
    assert_eq!(check(&[]), CODE_DOES_NOT_PASS);
}

const PASSES: &[u32] = &[DONE];
const DOES_NOT: &[u32] = &[CODE_DOES_NOT_PASS];
const EITHER: &[u32] = &[DONE, CODE_DOES_NOT_PASS];

const KINDS: [Kind<Check>; 87] = [
    // Compiled.
    Kind::new("rule B's code, as document 01 has it", PASSES, 10, |rng| {
        vec![Check::new(rng, &RULE_B)]
    }),
    Kind::new("rule B's code, each word another", EITHER, 40, |rng| every_word(rng, &RULE_B)),
    Kind::new("compiled", PASSES, 40_000, |rng| one(rng, compiled::code)),
    Kind::new("compiled, much of one thing", PASSES, 10_000, |rng| {
        one(rng, compiled::much_of_one_thing)
    }),
    Kind::new("compiled, as large as can be", PASSES, 10, |rng| all(rng, &compiled::largest())),
    Kind::new("compiled, a word changed", EITHER, 30_000, |rng| {
        damaged(rng, compiled::code, damage::another_word)
    }),
    Kind::new("compiled, a word far too high", DOES_NOT, 5_000, |rng| {
        damaged(rng, compiled::code, damage::high_word)
    }),
    Kind::new("compiled, words moved", EITHER, 5_000, |rng| {
        damaged(rng, compiled::code, damage::moved_words)
    }),
    Kind::new("compiled, a stretch moved", EITHER, 5_000, |rng| {
        damaged(rng, compiled::code, damage::moved_stretch)
    }),
    Kind::new("compiled, a word after", DOES_NOT, 2_000, |rng| {
        damaged(rng, compiled::code, damage::word_after)
    }),
    Kind::new("compiled, a CELL after", PASSES, 2_000, |rng| {
        damaged(rng, compiled::code, damage::cell_after)
    }),
    Kind::new("compiled, cut", EITHER, 10_000, |rng| cut(rng, compiled::code)),
    Kind::new("compiled, every cut", EITHER, 200, |rng| every_cut(rng, compiled::short)),
    Kind::new("compiled, much of one thing, damaged", EITHER, 4_000, |rng| {
        damaged(rng, compiled::much_of_one_thing, damaged_code)
    }),
    Kind::new("compiled, two crossed", EITHER, 10_000, |rng| crossed(rng, compiled::code)),
    // Foreign.
    Kind::new("foreign", PASSES, 30_000, |rng| one(rng, foreign)),
    Kind::new("foreign, damaged", EITHER, 25_000, |rng| damaged(rng, foreign, damaged_code)),
    Kind::new("foreign, a word changed", EITHER, 20_000, |rng| {
        damaged(rng, foreign, damage::another_word)
    }),
    Kind::new("foreign, a word far too high", DOES_NOT, 5_000, |rng| {
        damaged(rng, foreign, damage::high_word)
    }),
    Kind::new("foreign, words moved", EITHER, 5_000, |rng| {
        damaged(rng, foreign, damage::moved_words)
    }),
    Kind::new("foreign, a stretch moved", EITHER, 5_000, |rng| {
        damaged(rng, foreign, damage::moved_stretch)
    }),
    Kind::new("foreign, a word after", DOES_NOT, 1_000, |rng| {
        damaged(rng, foreign, damage::word_after)
    }),
    Kind::new("foreign, cut", EITHER, 10_000, |rng| cut(rng, foreign)),
    Kind::new("foreign, two crossed", EITHER, 10_000, |rng| crossed(rng, foreign)),
    // The edges that the second implementation's own tests go to.
    Kind::new("at an edge", PASSES, 10, |rng| edges(rng, false)),
    Kind::new("over an edge", DOES_NOT, 10, |rng| edges(rng, true)),
    Kind::new("at an edge, damaged", EITHER, 3_000, |rng| damaged(rng, edge, damaged_code)),
    Kind::new("at an edge, a word far too high", DOES_NOT, 1_000, |rng| {
        damaged(rng, edge, damage::high_word)
    }),
    Kind::new("at an edge, cut", EITHER, 2_000, |rng| cut(rng, edge)),
    // Both sides of each limit.
    Kind::new("64 blocks and bodies nested", PASSES, 1_000, |rng| {
        anywhere(rng, |rng| limits::nesting(rng, NESTING))
    }),
    Kind::new("65 blocks and bodies nested", DOES_NOT, 1_000, |rng| {
        anywhere(rng, |rng| limits::nesting(rng, NESTING + 1))
    }),
    Kind::new("63 open LAMBDAs", PASSES, 1_000, |rng| {
        anywhere(rng, |rng| limits::lambdas(rng, BINDERS))
    }),
    Kind::new("64 open LAMBDAs", DOES_NOT, 1_000, |rng| {
        anywhere(rng, |rng| limits::lambdas(rng, BINDERS + 1))
    }),
    Kind::new("16 entries", PASSES, 3_000, |rng| {
        anywhere(rng, |rng| limits::entries(rng, ENTRIES))
    }),
    Kind::new("17 entries", DOES_NOT, 3_000, |rng| {
        anywhere(rng, |rng| limits::entries(rng, ENTRIES + 1))
    }),
    Kind::new("256 current terms", PASSES, 1_000, |rng| {
        anywhere(rng, |rng| limits::current_terms(rng, CURRENT_TERMS))
    }),
    Kind::new("257 current terms", DOES_NOT, 1_000, |rng| {
        anywhere(rng, |rng| limits::current_terms(rng, CURRENT_TERMS + 1))
    }),
    Kind::new("depth 63", PASSES, 2_000, |rng| anywhere(rng, |rng| limits::depth(rng, BINDERS))),
    Kind::new("depth 64", DOES_NOT, 2_000, |rng| {
        anywhere(rng, |rng| limits::depth(rng, BINDERS + 1))
    }),
    Kind::new("CHECK of 63 indices", PASSES, 1_000, |rng| {
        anywhere(rng, |rng| limits::listed(rng, BINDERS))
    }),
    Kind::new("CHECK of 64 indices", DOES_NOT, 1_000, |rng| {
        anywhere(rng, |rng| limits::listed(rng, BINDERS + 1))
    }),
    Kind::new("8 pairs or keys", PASSES, 3_000, |rng| {
        anywhere(rng, |rng| limits::listed_pairs(rng, ARGUMENTS))
    }),
    Kind::new("9 pairs or keys", DOES_NOT, 3_000, |rng| {
        anywhere(rng, |rng| limits::listed_pairs(rng, ARGUMENTS + 1))
    }),
    Kind::new("the highest name", PASSES, 1_000, |rng| {
        anywhere(rng, |rng| limits::names(rng, INDEX as usize))
    }),
    Kind::new("a name one too high", DOES_NOT, 1_000, |rng| {
        anywhere(rng, |rng| limits::names(rng, INDEX as usize + 1))
    }),
    Kind::new("8 arguments", PASSES, 1_000, |rng| {
        anywhere(rng, |rng| limits::arguments(rng, ARGUMENTS))
    }),
    Kind::new("9 arguments", DOES_NOT, 1_000, |rng| {
        anywhere(rng, |rng| limits::arguments(rng, ARGUMENTS + 1))
    }),
    Kind::new("the highest index", PASSES, 2_000, |rng| {
        anywhere(rng, |rng| limits::indices(rng, 1))
    }),
    Kind::new("an index one too high", DOES_NOT, 2_000, |rng| {
        anywhere(rng, |rng| limits::indices(rng, 0))
    }),
    Kind::new("4,096 words", PASSES, 400, |rng| one(rng, |rng| limits::words(rng, CODE_WORDS))),
    Kind::new("4,097 words", DOES_NOT, 400, |rng| {
        one(rng, |rng| limits::words(rng, CODE_WORDS + 1))
    }),
    Kind::new("more words", DOES_NOT, 100, |rng| {
        one(rng, |rng| {
            let words = CODE_WORDS + *rng.pick(&[2, 3, 4, 64, 4_096, 12_000]);
            limits::words(rng, words)
        })
    }),
    Kind::new("no words", DOES_NOT, 100, |rng| vec![Check::on_front(rng, &RULE_B, 0)]),
    // Right, and wrong in one thing.
    Kind::new("a guard", PASSES, 5_000, |rng| right(rng, twins::guards)),
    Kind::new("no guard", DOES_NOT, 5_000, |rng| wrong(rng, twins::guards)),
    Kind::new("indices covered", PASSES, 5_000, |rng| right(rng, twins::covering)),
    Kind::new("an index not covered", DOES_NOT, 5_000, |rng| wrong(rng, twins::covering)),
    Kind::new("d", PASSES, 5_000, |rng| right(rng, twins::differences)),
    Kind::new("another d", DOES_NOT, 5_000, |rng| wrong(rng, twins::differences)),
    Kind::new("the oldest entry", PASSES, 2_000, |rng| right(rng, twins::entries)),
    Kind::new("an entry older than all", DOES_NOT, 2_000, |rng| wrong(rng, twins::entries)),
    Kind::new("EQIMM and PUSHIMM at depth b", PASSES, 2_000, |rng| right(rng, twins::same_depth)),
    Kind::new("EQIMM and PUSHIMM at another depth", DOES_NOT, 2_000, |rng| {
        wrong(rng, twins::same_depth)
    }),
    Kind::new("PUSHIMM in blocks", PASSES, 2_000, |rng| right(rng, twins::pushimm_in_bodies)),
    Kind::new("PUSHIMM in bodies", DOES_NOT, 2_000, |rng| wrong(rng, twins::pushimm_in_bodies)),
    Kind::new("bodies of as many words", PASSES, 4_000, |rng| right(rng, twins::body_words)),
    Kind::new("a body of a word more or less", DOES_NOT, 4_000, |rng| {
        wrong(rng, twins::body_words)
    }),
    Kind::new("bodies in bodies", PASSES, 2_000, |rng| right(rng, twins::bodies_in_bodies)),
    Kind::new("a body that reaches out of another", DOES_NOT, 2_000, |rng| {
        wrong(rng, twins::bodies_in_bodies)
    }),
    Kind::new("counts", PASSES, 2_000, |rng| right(rng, twins::counts)),
    Kind::new("a count far too high", DOES_NOT, 2_000, |rng| wrong(rng, twins::counts)),
    Kind::new("CELL of all terms inside", PASSES, 2_000, |rng| right(rng, twins::reach)),
    Kind::new("CELL of one more", DOES_NOT, 2_000, |rng| wrong(rng, twins::reach)),
    Kind::new("one term", PASSES, 1_000, |rng| right(rng, twins::one_term)),
    Kind::new("no term or several", DOES_NOT, 1_000, |rng| wrong(rng, twins::one_term)),
    Kind::new("blocks closed", PASSES, 1_000, |rng| right(rng, twins::closing)),
    Kind::new("blocks not closed, or elsewhere", DOES_NOT, 1_000, |rng| wrong(rng, twins::closing)),
    Kind::new("no current term", DOES_NOT, 500, |rng| anywhere(rng, misplaced::no_current_term)),
    Kind::new("match instruction in the build part", DOES_NOT, 500, |rng| {
        anywhere(rng, misplaced::match_in_build)
    }),
    Kind::new("build part while a term is current", DOES_NOT, 1_000, |rng| {
        anywhere(rng, misplaced::build_too_early)
    }),
    Kind::new("no such opcode", DOES_NOT, 1_000, |rng| anywhere(rng, misplaced::no_such_opcode)),
    Kind::new("right, damaged", EITHER, 20_000, |rng| damaged(rng, right_in_all, damaged_code)),
    Kind::new("right, a word changed", EITHER, 20_000, |rng| {
        damaged(rng, right_in_all, damage::another_word)
    }),
    Kind::new("right, cut", EITHER, 10_000, |rng| cut(rng, right_in_all)),
    // Anything.
    Kind::new("any words", DOES_NOT, 10_000, |rng| one(rng, anything::noise)),
    Kind::new("small words", EITHER, 30_000, |rng| one(rng, anything::small_words)),
    Kind::new("any instructions", EITHER, 100_000, |rng| one(rng, anything::instructions)),
];

/// Rule B's code, from document 01.
const RULE_B: [u32; 25] =
    [0, 1, 2, 0, 2, 1, 1, 3, 0, 4, 2, 3, 0, 4, 2, 13, 1, 63, 1, 0, 4, 13, 0, 64, 0];

/// Makes code.
type Make = fn(&mut Rng) -> Vec<u32>;
/// Makes parts that are right, or wrong in one thing.
type Twins = fn(&mut Rng, bool) -> Vec<Parts>;

fn foreign(rng: &mut Rng) -> Vec<u32> {
    foreign_code(rng).code
}

/// Some code at an edge.
fn edge(rng: &mut Rng) -> Vec<u32> {
    edge_code(rng.below(EDGES), false).code
}

/// Some twin that is right.
fn right_in_all(rng: &mut Rng) -> Vec<u32> {
    const ALL: [Twins; 10] = [
        twins::guards,
        twins::covering,
        twins::differences,
        twins::entries,
        twins::same_depth,
        twins::pushimm_in_bodies,
        twins::body_words,
        twins::bodies_in_bodies,
        twins::reach,
        twins::closing,
    ];
    let parts = rng.pick(&ALL)(rng, false);
    rng.pick(&parts).anywhere(rng)
}

fn one(rng: &mut Rng, make: Make) -> Vec<Check> {
    let code = make(rng);
    vec![Check::new(rng, &code)]
}

fn all(rng: &mut Rng, codes: &[Vec<u32>]) -> Vec<Check> {
    codes.iter().map(|code| Check::new(rng, code)).collect()
}

/// Each edge, or one step past it.
fn edges(rng: &mut Rng, over: bool) -> Vec<Check> {
    (0..EDGES).map(|kind| Check::new(rng, &edge_code(kind, over).code)).collect()
}

fn anywhere(rng: &mut Rng, make: fn(&mut Rng) -> Vec<Parts>) -> Vec<Check> {
    let parts = make(rng);
    on_each(rng, &parts)
}

fn right(rng: &mut Rng, twins: Twins) -> Vec<Check> {
    let parts = twins(rng, false);
    on_each(rng, &parts)
}

fn wrong(rng: &mut Rng, twins: Twins) -> Vec<Check> {
    let parts = twins(rng, true);
    on_each(rng, &parts)
}

/// Alone or behind others, each of these.
fn on_each(rng: &mut Rng, parts: &[Parts]) -> Vec<Check> {
    let codes: Vec<Vec<u32>> = parts.iter().map(|parts| parts.anywhere(rng)).collect();
    all(rng, &codes)
}

/// One code with this damage, several times.
fn damaged(rng: &mut Rng, make: Make, damage: fn(&mut Rng, &[u32]) -> Vec<u32>) -> Vec<Check> {
    const TIMES: usize = 4;
    let code = make(rng);
    let codes: Vec<Vec<u32>> = (0..TIMES).map(|_| damage(rng, &code)).collect();
    all(rng, &codes)
}

/// Each word in turn is another one.
fn every_word(rng: &mut Rng, code: &[u32]) -> Vec<Check> {
    let change = |place: usize| {
        let mut changed = code.to_vec();
        changed[place] = rng.below(15) as u32;
        Check::new(rng, &changed)
    };
    (0..code.len()).map(change).collect()
}

fn cut(rng: &mut Rng, make: Make) -> Vec<Check> {
    let code = make(rng);
    vec![damage::cut(rng, &code)]
}

fn every_cut(rng: &mut Rng, make: Make) -> Vec<Check> {
    let code = make(rng);
    damage::every_cut(rng, &code)
}

fn crossed(rng: &mut Rng, make: Make) -> Vec<Check> {
    let (front, end) = (make(rng), make(rng));
    let code = damage::crossed(rng, &front, &end);
    vec![Check::new(rng, &code)]
}
