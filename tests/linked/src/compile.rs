//! `reed_compile`.

use second::limits::{BINDERS, CODE_WORDS, METAVARIABLES, NODE_WORDS};
use second::seed::{Rng, Rule};

use crate::call::{Answer, Call, Difference};
#[cfg(target_arch = "x86_64")]
use crate::engine::linked;
use crate::guarded::{Area, Guarded};

type Compiler = fn(&[u32], &[u32], &mut [u32]) -> second::Answer;

/// The most words of code for a node, but for the lists of CHECKs: a PUSHI of the right side in a
/// body, with key and length of that.
const WORDS_OF_NODE: usize = 6;
/// The most words of all lists of CHECKs.
const LISTED_WORDS: usize = METAVARIABLES * BINDERS;

#[derive(Clone, PartialEq, Eq)]
pub struct Compile {
    left: Guarded<u32>,
    right: Guarded<u32>,
    code: Guarded<u32>,
}

impl Compile {
    /// A call on this rule, with a code table of this length full of noise.
    pub fn new(rng: &mut Rng, rule: &Rule, lent: usize) -> Compile {
        let nodes = (rule.left.len() + rule.right.len()) / NODE_WORDS;
        let reach = CODE_WORDS.min(WORDS_OF_NODE * nodes + LISTED_WORDS);
        Compile {
            left: Guarded::holding(rng, &rule.left),
            right: Guarded::holding(rng, &rule.right),
            code: Guarded::noise(rng, lent, reach),
        }
    }

    /// The same with these words at the front of the code table: what a call is to leave.
    pub fn with_code(mut self, words: &[u32]) -> Compile {
        self.code.part_mut()[..words.len()].copy_from_slice(words);
        self
    }

    fn make(&mut self, compile: Compiler) -> Answer {
        let answer = compile(self.left.part(), self.right.part(), self.code.part_mut());
        [answer.number, answer.words, 0, 0, 0]
    }
}

impl Call for Compile {
    const NUMBER: u32 = 2;

    fn areas(&mut self) -> Vec<&mut dyn Area> {
        vec![&mut self.left, &mut self.right, &mut self.code]
    }

    #[cfg(target_arch = "x86_64")]
    fn make_linked(&mut self) -> Answer {
        self.make(linked::compile)
    }

    fn make_second(&mut self) -> Answer {
        self.make(second::compile)
    }

    fn differences(&self, expected: &Compile) -> Vec<Difference> {
        vec![
            ("code", self.code.difference(&expected.code)),
            ("left", self.left.difference(&expected.left)),
            ("right", self.right.difference(&expected.right)),
        ]
    }
}
