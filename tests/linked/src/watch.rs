//! `reed_watch`.

use second::seed::Rng;
use second::WatchAnswer;

use crate::call::{Answer, Call, Difference};
#[cfg(target_arch = "x86_64")]
use crate::engine::linked;
use crate::guarded::{Area, Guarded};

type Watcher = fn(&[u32], &[u32], u32) -> WatchAnswer;

#[derive(Clone, PartialEq, Eq)]
pub struct Watch {
    code: Guarded<u32>,
    subject: Guarded<u32>,
    i: u32,
}

impl Watch {
    /// A call on this code and subject for the first so many instructions.
    pub fn new(rng: &mut Rng, code: &[u32], subject: &[u32], i: u32) -> Watch {
        Watch { code: Guarded::holding(rng, code), subject: Guarded::holding(rng, subject), i }
    }

    fn make(&mut self, watch: Watcher) -> Answer {
        let answer = watch(self.code.part(), self.subject.part(), self.i);
        let WatchAnswer { number, current, entries, finished, node } = answer;
        [number, current, entries, finished, node]
    }
}

impl Call for Watch {
    const NUMBER: u32 = 5;

    fn areas(&mut self) -> Vec<&mut dyn Area> {
        vec![&mut self.code, &mut self.subject]
    }

    fn argument(&self) -> u32 {
        self.i
    }

    #[cfg(target_arch = "x86_64")]
    fn make_linked(&mut self) -> Answer {
        self.make(linked::watch)
    }

    fn make_second(&mut self) -> Answer {
        self.make(second::watch)
    }

    fn differences(&self, expected: &Watch) -> Vec<Difference> {
        vec![
            ("code", self.code.difference(&expected.code)),
            ("subject", self.subject.difference(&expected.subject)),
        ]
    }
}
