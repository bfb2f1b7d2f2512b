//! Code tables lent for a rule.

use linked::compile::Compile;
use second::limits::CODE_WORDS;
use second::seed::{Rng, Rule};

/// How many words the code of an accepted rule has.
pub fn words_of(rule: &Rule) -> usize {
    let mut code = [0; CODE_WORDS];
    second::compile(&rule.left, &rule.right, &mut code).words as usize
}

/// No word, few, or more than enough: for a rule that is refused whatever is lent.
pub fn at_any_length(rng: &mut Rng, rule: &Rule) -> Compile {
    let lent = *rng.pick(&[0, 1, 25, 200, 200, CODE_WORDS]);
    Compile::new(rng, rule, lent)
}

pub fn exactly(rng: &mut Rng, rule: &Rule) -> Compile {
    Compile::new(rng, rule, words_of(rule))
}

pub fn one_short(rng: &mut Rng, rule: &Rule) -> Compile {
    Compile::new(rng, rule, words_of(rule) - 1)
}

pub fn short(rng: &mut Rng, rule: &Rule) -> Compile {
    let lent = rng.below(words_of(rule));
    Compile::new(rng, rule, lent)
}

pub fn with_room(rng: &mut Rng, rule: &Rule) -> Compile {
    let words = words_of(rule);
    let room = *rng.pick(&[1, 2, 40, 300, CODE_WORDS - words]);
    Compile::new(rng, rule, words + room)
}

/// A rule's code with just enough room and more, and one word less.
pub fn both_sides(rng: &mut Rng, rule: &Rule) -> Vec<Compile> {
    vec![one_short(rng, rule), exactly(rng, rule), with_room(rng, rule)]
}
