//! `reed_check`.

use second::seed::Rng;

use crate::call::{Answer, Call, Difference};
#[cfg(target_arch = "x86_64")]
use crate::engine::linked;
use crate::guarded::{Area, Guarded};

#[derive(Clone, PartialEq, Eq)]
pub struct Check {
    code: Guarded<u32>,
}

impl Check {
    /// A call on this code.
    pub fn new(rng: &mut Rng, code: &[u32]) -> Check {
        Check { code: Guarded::holding(rng, code) }
    }

    /// A call on the first so many words of this code; the others stand right behind, unlent.
    pub fn on_front(rng: &mut Rng, code: &[u32], words: usize) -> Check {
        let (lent, behind) = code.split_at(words);
        Check { code: Guarded::holding_before(rng, lent, behind) }
    }

    fn make(&mut self, check: fn(&[u32]) -> u32) -> Answer {
        [check(self.code.part()), 0, 0, 0, 0]
    }
}

impl Call for Check {
    const NUMBER: u32 = 3;

    fn areas(&mut self) -> Vec<&mut dyn Area> {
        vec![&mut self.code]
    }

    #[cfg(target_arch = "x86_64")]
    fn make_linked(&mut self) -> Answer {
        self.make(linked::check)
    }

    fn make_second(&mut self) -> Answer {
        self.make(second::check)
    }

    fn differences(&self, expected: &Check) -> Vec<Difference> {
        vec![("code", self.code.difference(&expected.code))]
    }
}
