//! `reed_run`.

use second::limits::{NODE_WORDS, RESULT_NODES, WORKING_WORDS};
use second::seed::Rng;

use crate::call::{Answer, Call, Difference};
#[cfg(target_arch = "x86_64")]
use crate::engine::linked;
use crate::guarded::{Area, Guarded};

type Runner = fn(&[u32], &[u32], &mut [u32], &mut [u32]) -> second::Answer;

/// The words of the longest result.
pub const RESULT_WORDS: usize = NODE_WORDS * RESULT_NODES;

#[derive(Clone, PartialEq, Eq)]
pub struct Run {
    code: Guarded<u32>,
    subject: Guarded<u32>,
    working: Guarded<u32>,
    result: Guarded<u32>,
}

/// How many words of the two written tables are lent.
#[derive(Clone, Copy)]
pub struct Lent {
    pub working: usize,
    pub result: usize,
    /// How many words a wrong call could write to the result table, its length aside.
    pub reach: usize,
}

impl Lent {
    /// A working table that is just long enough, and a result table of this length.
    pub fn result(result: usize, reach: usize) -> Lent {
        Lent { working: WORKING_WORDS, result, reach }
    }
}

impl Run {
    /// A call on this code and subject, with tables of these lengths full of noise.
    pub fn new(rng: &mut Rng, code: &[u32], subject: &[u32], lent: Lent) -> Run {
        // A call that does not look at the length of a short working table uses all that it needs.
        let reach = WORKING_WORDS.saturating_sub(lent.working);
        Run {
            code: Guarded::holding(rng, code),
            subject: Guarded::holding(rng, subject),
            working: Guarded::noise(rng, lent.working, reach),
            result: Guarded::noise(rng, lent.result, lent.reach.saturating_sub(lent.result)),
        }
    }

    /// The same as a call is to leave it that writes these words.
    pub fn done_with(mut self, words: &[u32]) -> Run {
        self.working.part_mut().fill(0);
        self.result.part_mut()[..words.len()].copy_from_slice(words);
        self
    }

    fn make(&mut self, run: Runner) -> Answer {
        let tables = (self.working.part_mut(), self.result.part_mut());
        let answer = run(self.code.part(), self.subject.part(), tables.0, tables.1);
        [answer.number, answer.words, 0, 0, 0]
    }
}

impl Call for Run {
    const NUMBER: u32 = 4;

    fn areas(&mut self) -> Vec<&mut dyn Area> {
        vec![&mut self.code, &mut self.subject, &mut self.working, &mut self.result]
    }

    #[cfg(target_arch = "x86_64")]
    fn make_linked(&mut self) -> Answer {
        self.make(linked::run)
    }

    fn make_second(&mut self) -> Answer {
        self.make(second::run)
    }

    fn differences(&self, expected: &Run) -> Vec<Difference> {
        vec![
            ("result", self.result.difference(&expected.result)),
            ("working", self.working.difference(&expected.working)),
            ("code", self.code.difference(&expected.code)),
            ("subject", self.subject.difference(&expected.subject)),
        ]
    }
}
