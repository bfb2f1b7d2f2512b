//! Seeded calls, made by the library and by the second implementation, and compared.

use std::collections::BTreeMap;
use std::fmt;
use std::ops::Range;

use second::seed::Rng;

use crate::call::{difference, Answer, Call};
use crate::engine::Engine;

/// One way to make calls.
pub struct Kind<C> {
    name: &'static str,
    /// The numbers that the documents give to such calls: each must come, and no other.
    numbers: &'static [u32],
    /// But for these, which may come.
    rare: &'static [u32],
    /// What must be so of some answer.
    reached: &'static [fn(&Answer) -> bool],
    /// How many seeds.
    seeds: u64,
    /// The calls of a seed.
    calls: fn(&mut Rng) -> Vec<C>,
}

impl<C> Kind<C> {
    pub const fn new(
        name: &'static str,
        numbers: &'static [u32],
        seeds: u64,
        calls: fn(&mut Rng) -> Vec<C>,
    ) -> Kind<C> {
        Kind { name, numbers, rare: &[], reached: &[], seeds, calls }
    }

    /// The same where these numbers, too seldom to be counted on, may come too.
    pub const fn or_rarely(self, rare: &'static [u32]) -> Kind<C> {
        Kind { rare, ..self }
    }

    /// The same where each of these must hold of some answer.
    pub const fn reaching(self, reached: &'static [fn(&Answer) -> bool]) -> Kind<C> {
        Kind { reached, ..self }
    }
}

/// How often each number came.
type Numbers = BTreeMap<u32, usize>;

/// What came of all calls, kind by kind.
pub struct Tally {
    engine: &'static str,
    kinds: Vec<(&'static str, Numbers)>,
}

/// One of a seed's calls, counted from 0.
struct Case<C> {
    seed: u64,
    place: usize,
    call: C,
}

/// Once there are so many cases, they are made.
const TOGETHER: usize = 256;

/// Makes every call on both sides; panics where they differ, or a kind is not what it says.
pub fn compare<C: Call>(kinds: &[Kind<C>]) -> Tally {
    let mut engine = Engine::start().expect("the library can be reached");
    let mut tally = Tally { engine: engine.name(), kinds: Vec::new() };
    for kind in kinds {
        let answers = compare_kind(&mut engine, kind);
        for (number, reached) in kind.reached.iter().enumerate() {
            let reaches = share() > 1 || answers.iter().any(reached);
            assert!(reaches, "'{}': no answer is as its condition {number} says", kind.name);
        }
        let numbers = numbers_of(&answers);
        let often = |number: &u32| kind.numbers.contains(number) || !kind.rare.contains(number);
        let came: Vec<u32> = numbers.keys().copied().filter(often).collect();
        // In a share of the seeds a number may fail to come.
        let due = |number: &u32| share() == 1 || numbers.contains_key(number);
        let should: Vec<u32> = kind.numbers.iter().copied().filter(due).collect();
        assert_eq!(came, should, "'{}': numbers that came and should come", kind.name);
        tally.kinds.push((kind.name, numbers));
    }
    tally
}

fn numbers_of(answers: &[Answer]) -> Numbers {
    let mut numbers = Numbers::new();
    for answer in answers {
        *numbers.entry(answer[0]).or_default() += 1;
    }
    numbers
}

fn compare_kind<C: Call>(engine: &mut Engine, kind: &Kind<C>) -> Vec<Answer> {
    let mut answers = Vec::new();
    let mut cases = Vec::new();
    let seeds = seeds(kind.seeds);
    for seed in seeds.clone() {
        let calls = (kind.calls)(&mut Rng::new(seed)).into_iter().enumerate();
        cases.extend(calls.map(|(place, call)| Case { seed, place, call }));
        if cases.len() >= TOGETHER || seed + 1 == seeds.end {
            answers.extend(compare_cases(engine, kind.name, &mut cases));
        }
    }
    answers
}

/// Makes the cases on both sides and compares them; none is left. Gives the answers.
fn compare_cases<C: Call>(
    engine: &mut Engine,
    kind: &str,
    cases: &mut Vec<Case<C>>,
) -> Vec<Answer> {
    let mut calls: Vec<C> = cases.iter().map(|case| case.call.clone()).collect();
    let answers = engine.make(&mut calls).unwrap_or_else(|why| {
        let (first, last) = (cases[0].seed, cases[cases.len() - 1].seed);
        panic!("'{kind}', one of the seeds {first} to {last}: {why}");
    });
    for ((call, &answer), mut case) in calls.iter().zip(&answers).zip(cases.drain(..)) {
        let expected = case.call.make_second();
        if let Some(what) = difference((call, answer), (&case.call, expected)) {
            let Case { seed, place, .. } = case;
            panic!("'{kind}', seed {seed}, call {place}: {what}\n(SEED_FROM={seed} repeats it)");
        }
    }
    answers
}

/// The seeds of a kind: so many from 0 on. As in second's tests, SEED_FROM gives the first one and
/// SEED_TIMES how many times as many.
fn seeds(count: u64) -> Range<u64> {
    let from = setting("SEED_FROM", 0);
    from..from + (count * setting("SEED_TIMES", 1)).div_ceil(share())
}

/// Of so many seeds one is tried: SEED_SHARE, for a host that takes its time.
fn share() -> u64 {
    setting("SEED_SHARE", 1)
}

/// What SEED_SHARE leaves of a count.
pub fn share_of(count: usize) -> usize {
    count / share() as usize
}

fn setting(name: &str, otherwise: u64) -> u64 {
    std::env::var(name).ok().and_then(|text| text.parse().ok()).unwrap_or(otherwise)
}

impl Tally {
    pub fn calls(&self) -> usize {
        self.kinds.iter().flat_map(|(_, numbers)| numbers.values()).sum()
    }

    /// How many calls gave this number.
    pub fn times(&self, number: u32) -> usize {
        self.kinds.iter().filter_map(|(_, numbers)| numbers.get(&number)).sum()
    }
}

impl fmt::Display for Tally {
    fn fmt(&self, text: &mut fmt::Formatter) -> fmt::Result {
        writeln!(text, "{} calls agree ({}); by kind, NUMBER: TIMES", self.calls(), self.engine)?;
        for (kind, numbers) in &self.kinds {
            let times: Vec<String> =
                numbers.iter().map(|(n, times)| format!("{n}: {times}")).collect();
            writeln!(text, "  {kind:<40} {}", times.join(", "))?;
        }
        Ok(())
    }
}
