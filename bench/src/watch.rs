//! Plans to watch, to their end.

use std::hint::black_box;

use linked::numbers::{DONE, RESULT_INDEX_TOO_HIGH, RESULT_TOO_DEEP, RESULT_TOO_LARGE};
use second::limits::NODE_WORDS;

use crate::plans::Plan;
use crate::{proved, Case, Side};

pub struct Watched {
    plan: Plan,
}

impl Case for Watched {
    fn named(name: &str) -> Watched {
        let mut plan = Plan::named(name);
        // There are no limits to a result here.
        if [RESULT_TOO_LARGE, RESULT_TOO_DEEP, RESULT_INDEX_TOO_HIGH].contains(&plan.number) {
            plan.number = DONE;
        }
        Watched { plan }
    }

    /// The subject's nodes: no result is made.
    fn size(&self) -> usize {
        self.plan.subject.len() / NODE_WORDS
    }

    #[inline(always)]
    fn make(&mut self, side: Side) {
        let (code, subject) = black_box((&self.plan.code[..], &self.plan.subject[..]));
        let answer = match side {
            Side::Proved => proved::watch(code, subject, u32::MAX),
            Side::Second => second::watch(code, subject, u32::MAX),
        };
        assert_eq!(black_box(answer).number, self.plan.number);
    }
}
