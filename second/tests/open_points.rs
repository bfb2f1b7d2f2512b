//! The readings of open-points.md, items 1 to 18, as far as they show outside.

use second::limits::FILE_BYTES;
use second::seed::{edge_file, file_of, Rng, Term};
use second::{check, compile, list_run, plan_apply, read, run, watch};
use second::{Answer, ListAnswer, WatchAnswer};

/// F, a symbol without arguments.
const LEAF: [u32; 2] = [65_536, 0];

fn number_of_run(code: &[u32], subject: &[u32]) -> u32 {
    let (mut work, mut result) = (vec![3; 8_192], vec![0; 8_192]);
    run(code, subject, &mut work, &mut result).number
}

fn compiled(left: &[u32], right: &[u32]) -> u32 {
    compile(left, right, &mut [0; 4_096]).number
}

#[test]
fn item_1_too_many_words_before_not_good() {
    for words in [513, 514, 1_023] {
        let nonsense = vec![u32::MAX; words];
        assert_eq!(compiled(&nonsense, &LEAF), 2);
        assert_eq!(compiled(&LEAF, &nonsense), 2);
    }
    assert_eq!(compiled(&vec![u32::MAX; 512], &LEAF), 1);
    assert_eq!(compiled(&[], &LEAF), 1);
    assert_eq!(compiled(&LEAF, &[]), 1);
    let all = [2, 8, 0, 0];
    assert_eq!(number_of_run(&all, &vec![u32::MAX; 8_193]), 2);
    assert_eq!(number_of_run(&all, &[]), 1);
    // A table that is too deep and not good is not good.
    let deep = Term::chain(1, 70, Term::leaf(0)).words();
    assert_eq!(compiled(&deep, &LEAF), 3);
    assert_eq!(compiled(&deep[..deep.len() - 2], &LEAF), 1);
    assert_eq!(compiled(&[&deep[..], &LEAF].concat(), &LEAF), 1);
    // Left 3 comes before right 2.
    assert_eq!(compiled(&deep, &vec![0; 600]), 3);
}

/// A moved index does not meet a bound variable, nor a symbol behind the limit.
#[test]
fn item_3_indices_are_compared_without_cut_off() {
    // IS F 2, SET, NEXT, ISABST, EQI 0 (d = 1), NEXT: the second is the first, lifted.
    let code = [0, 0, 2, 4, 2, 1, 7, 0, 65, 0, 2, 8, 0, 0];
    let f = |first: Term, second: Term| Term::Sym(0, vec![first, Term::abst(second)]).words();
    assert_eq!(number_of_run(&code, &f(Term::Var(3), Term::Var(4))), 0);
    assert_eq!(number_of_run(&code, &f(Term::Var(0), Term::Var(0))), 12);
    // 65,535 moved by one is 65,536, which as a word is symbol 0.
    assert_eq!(number_of_run(&code, &f(Term::Var(65_535), Term::leaf(0))), 12);
    let under = |x| Term::abst(Term::Var(x));
    assert_eq!(number_of_run(&code, &f(under(0), under(0))), 0);
    assert_eq!(number_of_run(&code, &f(under(1), under(0))), 12);
    assert_eq!(number_of_run(&code, &f(under(1), under(2))), 0);
}

#[test]
fn items_4_and_9_code_without_a_part_or_a_current_term() {
    assert_eq!(check(&[2, 0, 0, 0, 8, 0, 0]), 11);
    assert_eq!(check(&[2, 1, 8, 0, 0]), 11);
    assert_eq!(check(&[2]), 11);
    assert_eq!(check(&[8, 0, 0]), 11);
    assert_eq!(check(&[]), 11);
    assert_eq!(check(&[2, 8, 0, 0]), 0);
    assert_eq!(number_of_run(&[2, 8, 0, 0], &[65_535, 0]), 0);
}

/// Z(x, y) under [x][y]: the first argument goes to the innermost abstraction.
#[test]
fn item_5_betas() {
    // F([[Z(1,0)]]) to Z(A, B) on F([[P(1,0)]]): index 1 becomes A, 0 becomes B.
    let left = Term::Sym(9, vec![Term::under(2, Term::Meta(1, vec![Term::Var(1), Term::Var(0)]))]);
    let right = Term::Meta(1, vec![Term::leaf(65), Term::leaf(66)]);
    let p = Term::Sym(80, vec![Term::Var(1), Term::Var(0)]);
    let subject = Term::Sym(9, vec![Term::under(2, p)]);
    let line = plan_apply(&file_of(&left.words(), &right.words(), &subject.words()));
    assert_eq!(
        line,
        format!("0 6 {} 2 {} 0 {} 0\n", 65_536 + 80, 65_536 + 65, 65_536 + 66).as_bytes()
    );
}

#[test]
fn item_6_no_empty_body() {
    assert_eq!(check(&[1, 4, 2, 13, 0, 63, 1, 0, 0]), 11);
    assert_eq!(check(&[1, 4, 2, 13, 0, 63, 1, 0, 3, 8, 0, 0]), 0);
}

#[test]
fn item_7_guards() {
    let push_unkeyed = [4, 2, 13, 0, 63, 0];
    let with = |lists: &[u32]| check(&[&[1], lists, &push_unkeyed].concat());
    assert_eq!(with(&[3, 1, 0]), 0);
    assert_eq!(with(&[3, 0, 3, 1, 0]), 0);
    assert_eq!(with(&[3, 1, 0, 3, 0]), 11);
    // CHECK, SET, SET: the newest has no guard, the one before it has.
    assert_eq!(with(&[3, 1, 0, 4]), 11);
    assert_eq!(check(&[1, 3, 1, 0, 4, 4, 2, 13, 1, 63, 0]), 0);
    // Repeated indices, in any order.
    assert_eq!(check(&[1, 1, 3, 3, 1, 0, 1, 4, 2, 13, 0, 62, 0]), 0);
}

#[test]
fn item_8_every_body_obeys_the_rules() {
    // The second body for key 0 never runs, but is no term.
    assert_eq!(check(&[1, 4, 2, 13, 0, 63, 2, 0, 3, 8, 0, 0, 0, 3, 8, 0, 1]), 11);
    assert_eq!(check(&[1, 4, 2, 13, 0, 63, 2, 0, 3, 8, 0, 0, 0, 3, 8, 0, 0]), 0);
    // A repeated key is below b too.
    assert_eq!(check(&[1, 4, 2, 13, 0, 63, 2, 0, 3, 8, 0, 0, 1, 3, 8, 0, 0]), 11);
}

/// 13 before 14 before 15 over the whole, whichever path comes first.
#[test]
fn item_10_result_limits_in_order() {
    let f = |t: Term| Term::Sym(1, vec![t]);
    let z = || Term::Meta(0, vec![]);
    let left = f(z()).words();
    let entry = f(Term::chain(2, 62, Term::Var(65_535))).words();
    let high = Term::abst(z());
    let number = |right: &Term, subject: &[u32]| {
        let line = plan_apply(&file_of(&left, &right.words(), subject));
        String::from_utf8(line).unwrap().split(' ').next().unwrap().to_string()
    };
    let wide = |first: Term| Term::Sym(3, [vec![first], vec![z(); 7]].concat());
    let wider = |first: Term| Term::Sym(3, [vec![first], vec![wide(z()); 7]].concat());
    assert_eq!(number(&high, &f(Term::Var(65_535)).words()), "15");
    assert_eq!(number(&Term::abst(high.clone()), &entry), "14");
    assert_eq!(number(&wider(Term::abst(high.clone())), &entry), "14");
    assert_eq!(number(&Term::Sym(3, vec![wider(high.clone()), wider(z())]), &entry), "13");
}

#[test]
fn item_11_the_working_table_is_zeros_after_16() {
    for length in [0, 1, 4_096, 8_191] {
        let mut work = vec![7; length];
        let mut result = [5; 4];
        let answer = run(&[2, 8, 0, 0], &LEAF, &mut work, &mut result);
        assert_eq!(answer, Answer { number: 16, words: 0 });
        assert!(work.iter().all(|word| *word == 0));
        assert_eq!(result, [5; 4]);
    }
    // 16 before 11.
    assert_eq!(run(&[], &[], &mut [], &mut []).number, 16);
    let mut long = vec![7; 10_000];
    assert_eq!(run(&[2, 8, 0, 0], &LEAF, &mut long, &mut [0; 2]).number, 0);
    assert!(long.iter().all(|word| *word == 0));
}

#[test]
fn item_12_watch_counts_the_whole_stack() {
    // NEXT, CELL, CELL, LAMBDA, CELL, PUSHVAR, CELL 2, ADBMAL, CELL 3.
    let code = [2, 8, 1, 0, 8, 2, 0, 9, 8, 3, 0, 11, 0, 8, 4, 2, 10, 8, 5, 3];
    let finished = [0, 0, 1, 2, 2, 3, 4, 3, 3, 1, 1, 1];
    for (i, finished) in finished.into_iter().enumerate() {
        let (current, node) = if i == 0 { (1, 0) } else { (0, 1) };
        let expected = WatchAnswer { number: 0, current, entries: 0, finished, node };
        assert_eq!(watch(&code, &LEAF, i as u32), expected, "{i}");
    }
    assert_eq!(watch(&code, &LEAF, u32::MAX).finished, 1);
}

#[test]
fn item_12_watch_does_not_build() {
    // Two to the power of 60 nodes: 60 bodies in one another.
    let inside = (0..60).fold(vec![8, 0, 0], |body: Vec<u32>, _| {
        [vec![13, 0, 63, 1, 0, body.len() as u32], body].concat()
    });
    let code = [vec![1, 4, 2], inside].concat();
    let subject = Term::abst(Term::Sym(1, vec![Term::Var(0), Term::Var(0)])).words();
    let all = WatchAnswer { number: 0, current: 0, entries: 1, finished: 1, node: 4 };
    assert_eq!(watch(&code, &subject, 4), all);
    assert_eq!(watch(&code, &subject, u32::MAX), all);
    assert_eq!(number_of_run(&code, &subject), 13);
}

#[test]
fn item_13_absent_before_too_many() {
    let metas = |names: std::ops::Range<u32>| {
        names.fold(Term::leaf(0), |t, name| Term::Sym(1, vec![Term::Meta(name, vec![]), t]))
    };
    let left = metas(0..17).words();
    assert_eq!(compiled(&left, &Term::Meta(99, vec![]).words()), 8);
    for name in 0..17 {
        assert_eq!(compiled(&left, &Term::Meta(name, vec![]).words()), 9);
    }
    assert_eq!(compiled(&left, &Term::Meta(3, vec![Term::leaf(0)]).words()), 8);
}

#[test]
fn item_16_the_programs_tables() {
    let line = |file: &[u8]| String::from_utf8(plan_apply(file)).unwrap();
    assert_eq!(line(&file_of(&[0; 513], &LEAF, &LEAF)), "2 0\n");
    assert_eq!(line(&file_of(&[0; 1_024], &LEAF, &LEAF)), "2 0\n");
    assert_eq!(line(&file_of(&[0; 1_025], &LEAF, &LEAF)), "17 0\n");
    assert_eq!(line(&[]), "17 0\n");
    let mut longest = file_of(&[0; 1_024], &[0; 1_024], &[0; 8_192]);
    assert_eq!(longest.len(), FILE_BYTES);
    assert_eq!(line(&longest), "2 0\n");
    longest.push(0);
    assert_eq!(line(&longest), "17 0\n");
    assert_eq!(line(&file_of(&LEAF, &LEAF, &[])), "1 0\n");
    assert_eq!(line(&file_of(&LEAF, &LEAF, &LEAF)), "0 2 65536 0\n");
}

#[test]
fn item_17_counts_are_checked_before_any_word_is_written() {
    let mut rng = Rng::new(17);
    for table in 0..3 {
        for over in [false, true] {
            let file = edge_file(&mut rng, table, over);
            let (mut left, mut right, mut subject) = ([1; 1_100], [2; 1_100], vec![3; 9_000]);
            let answer = read(&file, &mut left, &mut right, &mut subject);
            assert_eq!(answer.number, if over { 17 } else { 0 });
            if over {
                assert_eq!((answer.left, answer.right, answer.subject), (0, 0, 0));
                assert!(left == [1; 1_100] && right == [2; 1_100] && subject == vec![3; 9_000]);
            }
        }
    }
}

/// A list run with room for all: number, words, rewrites, normal.
fn listed(rules: &[u32], subject: &[u32], rewrites: u32) -> [u32; 4] {
    listed_in(rules, subject, rewrites, 16_384, 8_192)
}

fn listed_in(rules: &[u32], subject: &[u32], rewrites: u32, work: usize, words: usize) -> [u32; 4] {
    let (mut work, mut result) = (vec![3; work], vec![3; words]);
    let ListAnswer { number, words, rewrites, normal } =
        list_run(rules, subject, rewrites, &mut work, &mut result);
    assert!(work.iter().all(|word| *word == 0));
    assert!(number == 0 || result.iter().all(|word| *word == 3));
    [number, words, rewrites, normal]
}

/// F to G, where both have no arguments: IS 0 0, CELL 1 0.
const F_TO_G: [u32; 7] = [6, 0, 0, 0, 8, 1, 0];
/// The same back.
const G_TO_F: [u32; 7] = [6, 0, 1, 0, 8, 0, 0];
/// IS 2 1, SET, NEXT, PUSHI 0 twice, CELL 3 2: H(Z) to K(Z, Z).
const H_DOUBLES: [u32; 17] = [16, 0, 2, 1, 4, 2, 13, 0, 64, 0, 13, 0, 64, 0, 8, 3, 2];

#[test]
fn item_18_rules_and_rewrites_are_counted_first() {
    let rules = |count: usize| F_TO_G.repeat(count);
    assert_eq!(listed(&rules(32), &LEAF, 9), [0, 2, 1, 1]);
    assert_eq!(listed(&rules(33), &LEAF, 9), [37, 0, 0, 0]);
    // The last one cut: counted, and bad.
    assert_eq!(listed(&rules(32)[..32 * 7 - 1], &LEAF, 9), [11, 0, 0, 0]);
    assert_eq!(listed(&rules(33)[..33 * 7 - 1], &LEAF, 9), [37, 0, 0, 0]);
    assert_eq!(listed(&[&rules(32)[..], &[u32::MAX]].concat(), &LEAF, 9), [37, 0, 0, 0]);
    assert_eq!(listed(&rules(1), &LEAF, 1_001), [37, 0, 0, 0]);
    // 37, 16, 11, then the subject.
    let bad = [1, 99];
    assert_eq!(listed_in(&rules(33), &[], 0, 16_383, 0), [37, 0, 0, 0]);
    assert_eq!(listed_in(&bad, &[], 0, 16_383, 0), [16, 0, 0, 0]);
    assert_eq!(listed_in(&bad, &[], 0, 16_384, 0), [11, 0, 0, 0]);
    assert_eq!(listed_in(&rules(1), &[], 0, 16_384, 0), [1, 0, 0, 0]);
    assert_eq!(listed(&rules(1), &vec![0; 8_193], 0), [2, 0, 0, 0]);
    assert_eq!(listed(&rules(1), &Term::chain(1, 64, Term::leaf(0)).words(), 0), [3, 0, 0, 0]);
    assert_eq!(listed(&rules(1), &Term::Meta(0, vec![]).words(), 0), [4, 0, 0, 0]);
}

#[test]
fn item_18_no_rule_and_a_rule_of_no_words() {
    assert_eq!(listed(&[], &LEAF, 9), [0, 2, 0, 1]);
    assert_eq!(listed(&[], &LEAF, 0), [0, 2, 0, 1]);
    assert_eq!(listed(&[0], &LEAF, 9), [11, 0, 0, 0]);
    assert_eq!(listed(&[&F_TO_G[..], &[0]].concat(), &LEAF, 9), [11, 0, 0, 0]);
}

/// When the number is used up the last plan is still looked at, but the plan
/// that one more rewrite would make is not in the sequence.
#[test]
fn item_18_the_last_plan_is_looked_at() {
    assert_eq!(listed(&F_TO_G, &LEAF, 0), [0, 2, 0, 0]);
    assert_eq!(listed(&F_TO_G, &LEAF, 1), [0, 2, 1, 1]);
    let both = [F_TO_G, G_TO_F].concat();
    assert_eq!(listed(&both, &LEAF, 7), [0, 2, 7, 0]);
    // H(H(C)): the second plan has five nodes, the third one, which is not made, seven.
    let h = |term| Term::Sym(2, vec![term]);
    let plan = h(h(Term::leaf(9))).words();
    assert_eq!(listed_in(&H_DOUBLES, &plan, 1, 16_384, 10), [0, 10, 1, 0]);
    assert_eq!(listed_in(&H_DOUBLES, &plan, 2, 16_384, 10), [13, 0, 0, 0]);
}

#[test]
fn item_18_limits_are_read_over_each_plan() {
    // A subject over half the result table, with no rewrite at all.
    let plan = Term::chain(5, 4, Term::leaf(6)).words();
    assert_eq!(listed_in(&[], &plan, 0, 16_384, 10), [0, 10, 0, 1]);
    assert_eq!(listed_in(&[], &plan, 0, 16_384, 9), [13, 0, 0, 0]);
    // K(X, Y) to X brings the plan down again, but a plan between did not fit.
    let k_takes = [11, 0, 3, 2, 4, 2, 4, 2, 13, 1, 64, 0];
    let both = [&H_DOUBLES[..], &k_takes].concat();
    let h = |term| Term::Sym(2, vec![term]);
    let plan = h(Term::leaf(9)).words();
    assert_eq!(listed_in(&both, &plan, 5, 16_384, 6), [0, 2, 2, 1]);
    assert_eq!(listed_in(&both, &plan, 5, 16_384, 5), [13, 0, 0, 0]);
}

/// The first node and the first rule there, even where that breaks a limit
/// that another node or rule would not.
#[test]
fn item_18_the_first_node_and_rule_decide() {
    // H(C) doubles before F, its brother, could become G; the first rule wins at H.
    let h_to_g = [7, 0, 2, 1, 2, 8, 1, 0];
    let plan = Term::Sym(7, vec![Term::Sym(2, vec![Term::leaf(9)]), Term::leaf(0)]).words();
    let growing = [&F_TO_G[..], &H_DOUBLES, &h_to_g].concat();
    assert_eq!(listed_in(&growing, &plan, 1, 16_384, 8), [13, 0, 0, 0]);
    let shrinking = [&F_TO_G[..], &h_to_g, &H_DOUBLES].concat();
    assert_eq!(listed_in(&shrinking, &plan, 1, 16_384, 8), [0, 6, 1, 0]);
    assert_eq!(listed_in(&shrinking, &plan, 2, 16_384, 8), [0, 6, 2, 1]);
}
