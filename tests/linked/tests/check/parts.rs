//! Code from its two parts, and what such parts are made of.

use linked::code::*;
use second::limits::{ARGUMENTS, BINDERS};
use second::seed::Rng;

use crate::accepted::name;

/// A match part for one current term of depth 0, and a build part that makes one term.
pub struct Parts {
    pub matching: Vec<u32>,
    pub building: Vec<u32>,
}

impl Parts {
    pub fn new(matching: Vec<u32>, building: Vec<u32>) -> Parts {
        Parts { matching, building }
    }

    /// A match part, and a small build part.
    pub fn matching(rng: &mut Rng, matching: Vec<u32>) -> Parts {
        Parts { matching, building: term(rng, 0) }
    }

    /// A build part, and a small match part.
    pub fn building(rng: &mut Rng, building: Vec<u32>) -> Parts {
        Parts { matching: dropped(rng), building }
    }

    pub fn code(&self) -> Vec<u32> {
        [&self.matching[..], &self.building].concat()
    }

    /// The same behind others: in the last argument of a symbol that is met, and in the last one of
    /// a symbol that is built. What is counted begins anew there, but for the words.
    pub fn beside_others(&self, rng: &mut Rng) -> Vec<u32> {
        let others = rng.below(ARGUMENTS);
        let count = others as u32 + 1;
        let mut code = vec![IS, name(rng), count];
        (0..others).for_each(|_| code.extend(dropped(rng)));
        code.extend(&self.matching);
        (0..others).for_each(|_| code.extend(term(rng, 0)));
        code.extend(&self.building);
        code.extend([CELL, name(rng), count]);
        code
    }

    /// Alone or behind others.
    pub fn anywhere(&self, rng: &mut Rng) -> Vec<u32> {
        if rng.percent(40) {
            return self.code();
        }
        self.beside_others(rng)
    }
}

/// Looks at a current term of depth 0, and drops it.
pub fn dropped(rng: &mut Rng) -> Vec<u32> {
    let depth = rng.below(4);
    let mut code = vec![ISABST; depth];
    (0..rng.below(3)).for_each(|_| code.extend(look(rng, depth)));
    code.push(NEXT);
    code
}

/// A CHECK, an EQVAR or a symbol's IS that leaves one current term of this depth.
pub fn look(rng: &mut Rng, depth: usize) -> Vec<u32> {
    match rng.below(3) {
        0 => vec![IS, name(rng), 1],
        1 if depth > 0 => vec![EQVAR, rng.below(depth) as u32],
        _ => {
            let indices = rng.below(depth.min(5) + 1);
            check(&rng.distinct(indices, depth))
        }
    }
}

/// Builds a term of a few nodes without entries, with so many LAMBDAs open.
pub fn term(rng: &mut Rng, lambdas: usize) -> Vec<u32> {
    match rng.below(5) {
        0 if lambdas > 0 => vec![PUSHVAR, rng.below(lambdas) as u32],
        1 if lambdas + 2 < BINDERS => in_blocks(1, &term(rng, lambdas + 1)),
        2 => {
            let count = rng.below(4);
            let mut code: Vec<u32> = (0..count).flat_map(|_| term(rng, lambdas)).collect();
            code.extend([CELL, name(rng), count as u32]);
            code
        }
        _ => vec![CELL, name(rng), 0],
    }
}

/// A match part that makes the entry of `nested`'s bodies.
pub const KEYED: [u32; 3] = [ISABST, SET, NEXT];

/// Instructions inside so many blocks and so many bodies, these in any order.
pub fn in_levels(rng: &mut Rng, blocks: usize, bodies: usize, inside: &[u32]) -> Vec<u32> {
    let all = blocks + bodies;
    let level = |number| if (number as usize) < blocks { Level::Block } else { Level::Body };
    let levels: Vec<Level> = rng.distinct(all, all).into_iter().map(level).collect();
    nested(&levels, inside)
}

/// An entry: b, and the list of its CHECK.
#[derive(Clone)]
pub struct Entry {
    pub bound: usize,
    pub guard: Vec<u32>,
}

impl Entry {
    /// One whose guard leaves so many indices, at least, and no more than eight.
    pub fn any(rng: &mut Rng, least_left: usize) -> Entry {
        let most = *rng.pick(&[1, 3, 8, 9, 20, BINDERS - 1, BINDERS]);
        let bound = rng.between(least_left, most.max(least_left));
        let left = rng.between(least_left, bound.min(ARGUMENTS));
        let guard = rng.distinct(bound, bound).split_off(left);
        Entry { bound, guard }
    }

    /// The indices below b that are not in the guard.
    pub fn left(&self) -> Vec<u32> {
        (0..self.bound as u32).filter(|index| !self.guard.contains(index)).collect()
    }

    /// First indices or keys that pass: those left, and others, some repeated, so many in all.
    pub fn covering(&self, rng: &mut Rng, count: usize) -> Vec<u32> {
        let mut all = self.left();
        while all.len() < count {
            all.push(rng.below(self.bound) as u32);
        }
        let order = rng.distinct(all.len(), all.len());
        order.into_iter().map(|place| all[place as usize]).collect()
    }

    /// As many of those as there can be, or fewer.
    pub fn some_covering(&self, rng: &mut Rng) -> Vec<u32> {
        let least = self.left().len();
        let most = if self.bound == 0 { 0 } else { ARGUMENTS };
        let count = rng.between(least, most.max(least));
        self.covering(rng, count)
    }

    /// The instructions that make it from a current term of depth b.
    pub fn set(&self) -> Vec<u32> {
        [&check(&self.guard)[..], &[SET]].concat()
    }

    /// Makes it from a current term of depth 0, and drops that.
    pub fn made(&self) -> Vec<u32> {
        self.made_by(&self.set())
    }

    /// Makes it, or others, by these instructions.
    pub fn made_by(&self, instructions: &[u32]) -> Vec<u32> {
        [&vec![ISABST; self.bound], instructions, &[NEXT]].concat()
    }

    /// Makes it by these instructions, then has this one for a current term of such a depth.
    pub fn met_by(&self, set: &[u32], depth: usize, instruction: &[u32]) -> Vec<u32> {
        let again = [&vec![ISABST; depth], instruction, &[NEXT]].concat();
        [&[IS, 0, 2], &self.made_by(set)[..], &again].concat()
    }

    /// An EQI of it with these first indices, under so many abstractions.
    pub fn eqi(&self, rng: &mut Rng, depth: usize, firsts: &[u32]) -> Vec<u32> {
        let second = |first: &u32| [*first, rng.below(depth) as u32];
        let pairs: Vec<[u32; 2]> = firsts.iter().map(second).collect();
        eqi(0, difference(depth, self.bound), &pairs)
    }

    /// A PUSHI of it with these keys, under so many LAMBDAs.
    pub fn pushi(&self, rng: &mut Rng, lambdas: usize, keys: &[u32]) -> Vec<u32> {
        let bodies: Vec<_> = keys.iter().map(|key| (*key, term(rng, lambdas))).collect();
        pushi(0, difference(lambdas, self.bound), &bodies)
    }

    /// The entry, made by these instructions, in an EQI and in a PUSHI with these first indices and
    /// keys.
    pub fn in_both(&self, rng: &mut Rng, set: &[u32], keys: &[u32]) -> Vec<Parts> {
        self.in_both_changed(rng, set, keys, |_, _| ())
    }

    /// The same with a change to the two instructions.
    pub fn in_both_changed(
        &self,
        rng: &mut Rng,
        set: &[u32],
        keys: &[u32],
        change: fn(&mut Rng, &mut [u32]),
    ) -> Vec<Parts> {
        let (depth, lambdas) = (rng.between(1, BINDERS), rng.between(0, BINDERS));
        let mut compared = self.eqi(rng, depth, keys);
        let mut pushed = self.pushi(rng, lambdas, keys);
        change(rng, &mut compared);
        change(rng, &mut pushed);
        vec![
            Parts::matching(rng, self.met_by(set, depth, &compared)),
            Parts::new(self.made_by(set), in_blocks(lambdas, &pushed)),
        ]
    }
}
