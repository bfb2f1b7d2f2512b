//! Every input there can be, and no lent word changed that the documents keep:
//! each table lies between guard words, in tables that are empty, short, right
//! and long.

mod model;

use model::seeds;
use model::terms::{accept_rule, accept_subject};
use second::seed::*;
use second::{check, compile, list_run, read, run, watch, Answer, ListAnswer, ReadAnswer};

const GUARD: u32 = 0xA5A5_5A5A;
const OLD: u32 = 0x1234_5678;
const EDGE: usize = 5;

/// A table of old words between guard words.
struct Lent {
    words: Vec<u32>,
}

impl Lent {
    fn new(length: usize) -> Lent {
        let guard = vec![GUARD; EDGE];
        Lent { words: [guard.clone(), vec![OLD; length], guard].concat() }
    }

    fn table(&mut self) -> &mut [u32] {
        let end = self.words.len() - EDGE;
        &mut self.words[EDGE..end]
    }

    /// Guards whole, and everything behind the words written still old.
    fn kept_behind(&self, written: usize) -> bool {
        let end = self.words.len() - EDGE;
        self.words[..EDGE].iter().chain(&self.words[end..]).all(|word| *word == GUARD)
            && self.words[EDGE + written..end].iter().all(|word| *word == OLD)
    }

    /// Guards whole, and all zeros between them.
    fn zeros(&self) -> bool {
        let end = self.words.len() - EDGE;
        self.words[..EDGE].iter().chain(&self.words[end..]).all(|word| *word == GUARD)
            && self.words[EDGE..end].iter().all(|word| *word == 0)
    }
}

fn length(rng: &mut Rng, right: usize) -> usize {
    *rng.pick(&[0, 1, right.saturating_sub(1), right, right + 1, 9_000])
}

fn compile_keeps(left: &[u32], right: &[u32], rng: &mut Rng) {
    let mut code = Lent::new(length(rng, 30));
    let answer = compile(left, right, code.table());
    assert!(code.kept_behind(answer.words as usize));
    assert!(answer.number == 0 || answer.words == 0);
    match accept_rule(left, right) {
        Ok(_) => assert!(answer.number == 0 || answer.number == 10),
        Err(number) => assert_eq!(answer.number, number),
    }
}

fn run_keeps(code: &[u32], subject: &[u32], rng: &mut Rng) {
    let (mut work, mut result) = (Lent::new(length(rng, 8_192)), Lent::new(length(rng, 12)));
    let room = work.words.len() - 2 * EDGE >= 8_192;
    let half = (result.words.len() - 2 * EDGE) / 2;
    let answer = run(code, subject, work.table(), result.table());
    assert!(work.zeros() && result.kept_behind(answer.words as usize));
    assert!(answer.words as usize <= 2 * half);
    let watched = watch(code, subject, u32::MAX);
    if !room {
        assert_eq!(answer, Answer { number: 16, words: 0 });
    } else if check(code) != 0 {
        assert_eq!((answer.number, watched.number), (11, 11));
    } else if let Err(number) = accept_subject(subject) {
        assert_eq!((answer.number, watched.number), (number, number));
    } else if watched.number == 12 {
        assert_eq!(answer, Answer { number: 12, words: 0 });
    } else {
        assert!([0, 13, 14, 15].contains(&answer.number));
        assert_eq!(answer.words == 0, answer.number != 0);
    }
}

fn list_run_keeps(rules: &[u32], subject: &[u32], rng: &mut Rng) {
    let (mut work, mut result) = (Lent::new(length(rng, 16_384)), Lent::new(length(rng, 12)));
    let rewrites = *rng.pick(&[0, 1, 5, 1_000, 1_001]);
    let answer = list_run(rules, subject, rewrites, work.table(), result.table());
    assert!(work.zeros() && result.kept_behind(answer.words as usize));
    if answer.number != 0 {
        assert_eq!(answer, ListAnswer { number: answer.number, words: 0, rewrites: 0, normal: 0 });
    }
    assert!(answer.rewrites <= rewrites && answer.normal <= 1);
}

#[test]
fn seeded_cases_in_tables_of_every_length() {
    for seed in seeds(20_000) {
        let mut rng = Rng::new(seed);
        let mut rule = good_rule(&mut rng);
        let mut foreign = foreign_code(&mut rng);
        if rng.percent(40) {
            let refusal = *rng.pick(&BREAKS);
            rule = break_rule(&mut rng, &rule, refusal);
        }
        if rng.percent(30) {
            foreign.code = damaged_code(&mut rng, &foreign.code);
        }
        if rng.percent(30) {
            foreign.subject = nearly(&mut rng, &foreign.subject);
        }
        compile_keeps(&rule.left, &rule.right, &mut rng);
        run_keeps(&foreign.code, &foreign.subject, &mut rng);
        let list = [&[foreign.code.len() as u32], &foreign.code[..]].concat();
        list_run_keeps(&list, &foreign.subject, &mut rng);
    }
}

/// Words of any kind, many of them small, so that they look like tables or code.
fn noise(rng: &mut Rng) -> Vec<u32> {
    let length = *rng.pick(&[0, 1, 2, 3, 7, 20, 511, 513, 4_096, 4_097, 8_192, 8_193]);
    let length = rng.below(length + 1);
    let kind = rng.below(4);
    let word = |rng: &mut Rng| match kind {
        0 => rng.bits() as u32,
        1 => rng.below(14) as u32,
        2 => (rng.below(4) as u32) << 16 | rng.below(3) as u32,
        _ => *rng.pick(&[0, 0, 1, 65_536, 65_537, 196_608, 131_072, 8, 13, 64, u32::MAX]),
    };
    (0..length).map(|_| word(rng)).collect()
}

#[test]
fn noise_is_refused_and_never_panics() {
    for seed in seeds(10_000) {
        let mut rng = Rng::new(seed);
        let (left, right) = (noise(&mut rng), noise(&mut rng));
        compile_keeps(&left, &right, &mut rng);
        run_keeps(&left, &right, &mut rng);
        run_keeps(&[2, 8, 0, 0], &right, &mut rng);
        list_run_keeps(&left, &right, &mut rng);
        list_run_keeps(&[4, 2, 8, 0, 0], &right, &mut rng);
    }
}

/// A naive reader: all the words of the file, then where they belong.
fn expected_read(file: &[u8], lent: [usize; 3]) -> Option<[Vec<u32>; 3]> {
    let (version, bytes) = file.split_first()?;
    let words: Vec<u32> = bytes
        .chunks(4)
        .map(|b| b.iter().fold(0u32, |word, byte| word << 8 | u32::from(*byte)))
        .collect();
    let mut rest = &words[..];
    let mut tables = [vec![], vec![], vec![]];
    for (table, most) in tables.iter_mut().zip([1_024, 1_024, 8_192].iter().zip(lent)) {
        let (count, after) = rest.split_first()?;
        let count = *count as usize;
        if count > *most.0 || count > most.1 || count > after.len() {
            return None;
        }
        *table = after[..count].to_vec();
        rest = &after[count..];
    }
    (*version == 1 && bytes.len() % 4 == 0 && rest.is_empty()).then_some(tables)
}

fn read_keeps(file: &[u8], lent: [usize; 3]) -> u32 {
    let mut tables = lent.map(Lent::new);
    let [left, right, subject] = &mut tables;
    let answer = read(file, left.table(), right.table(), subject.table());
    let expected = expected_read(file, lent);
    let counts = [answer.left, answer.right, answer.subject];
    for (number, table) in tables.iter_mut().enumerate() {
        let count = counts[number] as usize;
        assert!(table.kept_behind(count));
        if let Some(expected) = &expected {
            assert_eq!(table.table()[..count], expected[number]);
        }
    }
    match expected {
        Some(words) => assert_eq!((answer.number, counts), (0, words.map(|t| t.len() as u32))),
        None => assert_eq!(answer, ReadAnswer { number: 17, left: 0, right: 0, subject: 0 }),
    }
    answer.number
}

#[test]
fn files_in_tables_of_every_length() {
    let (mut good, mut bad) = (0, 0);
    for seed in seeds(20_000) {
        let mut rng = Rng::new(seed);
        let rule = good_rule(&mut rng);
        let subject = random_subject(&mut rng);
        let mut file = file_of(&rule.left, &rule.right, &subject);
        if rng.percent(50) {
            file = damaged_file(&mut rng, &file);
        }
        if rng.percent(2) {
            let (table, over) = (rng.below(3), rng.percent(50));
            file = edge_file(&mut rng, table, over);
        }
        let sizes = [rule.left.len(), rule.right.len(), subject.len()];
        let lent = sizes.map(|size| if rng.percent(80) { 9_000 } else { length(&mut rng, size) });
        match read_keeps(&file, lent) {
            0 => good += 1,
            _ => bad += 1,
        }
    }
    assert!(good > 4_000 && bad > 4_000, "{good} {bad}");
    assert_eq!(read_keeps(&[], [9; 3]), 17);
    assert_eq!(read_keeps(&[1], [9; 3]), 17);
    assert_eq!(read_keeps(&[2, 0, 0, 0, 0, 0, 0, 0, 0, 0, 0, 0, 0], [9; 3]), 17);
    assert_eq!(read_keeps(&[1, 0, 0, 0, 0, 0, 0, 0, 0, 0, 0, 0, 0], [0; 3]), 0);
}
