//! `reed_list_run`.

use second::limits::{LIST_WORKING_WORDS, NODE_WORDS, RESULT_NODES};
use second::seed::Rng;
use second::ListAnswer;

use crate::call::{Answer, Call, Difference};
#[cfg(target_arch = "x86_64")]
use crate::engine::linked;
use crate::guarded::{Area, Guarded};

type ListRunner = fn(&[u32], &[u32], u32, &mut [u32], &mut [u32]) -> ListAnswer;

/// The words of the longest result.
pub const RESULT_WORDS: usize = NODE_WORDS * RESULT_NODES;

/// A table of rules: each one's word count and its code.
pub fn table_of(codes: &[Vec<u32>]) -> Vec<u32> {
    codes.iter().flat_map(|code| [&[code.len() as u32], &code[..]].concat()).collect()
}

#[derive(Clone, PartialEq, Eq)]
pub struct ListRun {
    rules: Guarded<u32>,
    subject: Guarded<u32>,
    rewrites: u32,
    working: Guarded<u32>,
    result: Guarded<u32>,
}

/// How many words of the two written tables are lent.
#[derive(Clone, Copy)]
pub struct Lent {
    pub working: usize,
    pub result: usize,
    /// How many words a wrong call could write to the result table, its length aside.
    pub reach: usize,
}

impl Lent {
    /// A working table that is just long enough, and a result table of this length.
    pub fn result(result: usize, reach: usize) -> Lent {
        Lent { working: LIST_WORKING_WORDS, result, reach }
    }
}

impl ListRun {
    /// A call on this table of rules and subject, with tables of these lengths full of noise.
    pub fn new(
        rng: &mut Rng,
        rules: &[u32],
        subject: &[u32],
        rewrites: u32,
        lent: Lent,
    ) -> ListRun {
        ListRun::cut(rng, [rules, &[]], subject, rewrites, lent)
    }

    /// The same with words right behind the table of rules that are not lent: whole rules for a
    /// call that looks there.
    pub fn cut(
        rng: &mut Rng,
        [rules, behind]: [&[u32]; 2],
        subject: &[u32],
        rewrites: u32,
        lent: Lent,
    ) -> ListRun {
        // A call that does not look at the length of a short working table uses all that it needs.
        let reach = LIST_WORKING_WORDS.saturating_sub(lent.working);
        ListRun {
            rules: Guarded::holding_before(rng, rules, behind),
            subject: Guarded::holding(rng, subject),
            rewrites,
            working: Guarded::noise(rng, lent.working, reach),
            result: Guarded::noise(rng, lent.result, lent.reach.saturating_sub(lent.result)),
        }
    }

    /// The same as a call is to leave it that writes these words.
    pub fn done_with(mut self, words: &[u32]) -> ListRun {
        self.working.part_mut().fill(0);
        self.result.part_mut()[..words.len()].copy_from_slice(words);
        self
    }

    fn make(&mut self, list_run: ListRunner) -> Answer {
        let tables = (self.working.part_mut(), self.result.part_mut());
        let (rules, subject) = (self.rules.part(), self.subject.part());
        let answer = list_run(rules, subject, self.rewrites, tables.0, tables.1);
        let ListAnswer { number, words, rewrites, normal } = answer;
        [number, words, rewrites, normal, 0]
    }
}

impl Call for ListRun {
    const NUMBER: u32 = 6;

    fn areas(&mut self) -> Vec<&mut dyn Area> {
        vec![&mut self.rules, &mut self.subject, &mut self.working, &mut self.result]
    }

    fn argument(&self) -> u32 {
        self.rewrites
    }

    #[cfg(target_arch = "x86_64")]
    fn make_linked(&mut self) -> Answer {
        self.make(linked::list_run)
    }

    fn make_second(&mut self) -> Answer {
        self.make(second::list_run)
    }

    fn differences(&self, expected: &ListRun) -> Vec<Difference> {
        vec![
            ("result", self.result.difference(&expected.result)),
            ("working", self.working.difference(&expected.working)),
            ("rules", self.rules.difference(&expected.rules)),
            ("subject", self.subject.difference(&expected.subject)),
        ]
    }
}
