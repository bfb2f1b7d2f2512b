//! Plans to run.

use std::hint::black_box;

use crate::plans::Plan;
use crate::{proved, Case, Side};

/// A plan with its tables.
pub struct LentPlan {
    plan: Plan,
    working: Vec<u32>,
    result: Vec<u32>,
}

impl Case for LentPlan {
    fn named(name: &str) -> LentPlan {
        let plan = Plan::named(name);
        let (working, result) = (vec![0; plan.working_words], vec![0; plan.result_words]);
        LentPlan { plan, working, result }
    }

    fn size(&self) -> usize {
        self.plan.nodes()
    }

    #[inline(always)]
    fn make(&mut self, side: Side) {
        let (code, subject) = black_box((&self.plan.code[..], &self.plan.subject[..]));
        let (working, result) = black_box((&mut self.working[..], &mut self.result[..]));
        let answer = match side {
            Side::Proved => proved::run(code, subject, working, result),
            Side::Second => second::run(code, subject, working, result),
        };
        assert_eq!(black_box(answer).number, self.plan.number);
    }
}
