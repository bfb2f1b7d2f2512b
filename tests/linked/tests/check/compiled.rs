//! Code of accepted rules.

use second::limits::{CODE_WORDS, SIDE_NODES};
use second::seed::{good_rule, large, Rng, Rule};

use crate::accepted::*;

pub fn code_of(rule: &Rule) -> Vec<u32> {
    let mut code = vec![0; CODE_WORDS];
    let words = second::compile(&rule.left, &rule.right, &mut code).words;
    code.truncate(words as usize);
    code
}

/// Of rules as they come.
pub fn code(rng: &mut Rng) -> Vec<u32> {
    code_of(&good_rule(rng))
}

/// Of rules with few nodes.
pub fn short(rng: &mut Rng) -> Vec<u32> {
    code_of(&small(rng))
}

/// Of rules with much of one thing.
pub fn much_of_one_thing(rng: &mut Rng) -> Vec<u32> {
    let rules =
        [same_name, sixteen_metavariables, repeated, under_abstractions, nested_bodies, to_itself];
    let rule = rng.pick(&rules)(rng);
    code_of(&rule)
}

/// Of rules as large as can be, the longest code among them.
pub fn largest() -> Vec<Vec<u32>> {
    let rules = [
        large::wide(),
        large::deep(),
        large::checks(),
        large::repeated(),
        large::most_words(),
        large::growing(SIDE_NODES),
    ];
    rules.iter().map(code_of).collect()
}
