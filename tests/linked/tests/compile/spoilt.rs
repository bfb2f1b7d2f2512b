//! Tables that are not good.

use second::limits::{INDEX, NODE_WORDS};
use second::seed::{Rng, Term};

use crate::accepted::name;

/// The first words of each kind, and of none.
pub const SYMBOL: u32 = 1 << 16;
pub const METAVARIABLE: u32 = 2 << 16;
pub const ABSTRACTION: u32 = 3 << 16;
const NO_NODE: u32 = 4 << 16;

/// Words after the term: one, a node, or another table.
pub fn words_after(rng: &mut Rng, table: &mut Vec<u32>, another: Vec<u32>) {
    match rng.below(3) {
        0 => table.push(rng.below(3) as u32),
        1 => table.extend(Term::leaf(3).words()),
        _ => table.extend(another),
    }
}

/// One node is none, though it has as many arguments as before.
pub fn no_such_node(rng: &mut Rng, table: &mut [u32]) {
    let node = NODE_WORDS * rng.below(table.len() / NODE_WORDS);
    table[node] = no_first_word(rng, table[node + 1]);
}

/// A first word that no node with so many arguments has.
fn no_first_word(rng: &mut Rng, count: u32) -> u32 {
    let high = NO_NODE << rng.below(14);
    let of_no_kind = *rng.pick(&[NO_NODE, high, high + SYMBOL, u32::MAX]);
    let variable = name(rng);
    let of_a_kind = match count {
        0 => ABSTRACTION,
        1 => *rng.pick(&[variable, ABSTRACTION + 1, ABSTRACTION + INDEX]),
        _ => *rng.pick(&[variable, ABSTRACTION]),
    };
    *rng.pick(&[of_no_kind, of_a_kind])
}

/// A node with a count that is wrong by one, or far too high: one that would be right if only its
/// low bits were looked at, too.
pub fn another_count(rng: &mut Rng, table: &mut [u32]) {
    let nodes = table.len() / NODE_WORDS;
    let count = &mut table[NODE_WORDS * rng.below(nodes) + 1];
    let high = *count + (1 << rng.between(8, 31));
    let off = rng.between(1, 9) as u32;
    *count = *rng.pick(&[*count + 1, count.wrapping_sub(1), *count + off, high, u32::MAX]);
}

/// Any of these, however long or deep the table is.
pub fn spoil(rng: &mut Rng, table: &mut Vec<u32>) {
    let node = NODE_WORDS * rng.below(table.len() / NODE_WORDS);
    match rng.below(6) {
        0 => table.push(0),
        1 => table.extend(Term::leaf(1).words()),
        2 => table.truncate(table.len() - 1),
        3 => table.truncate(table.len() - NODE_WORDS),
        4 => table[node] = no_first_word(rng, table[node + 1]),
        _ => table[node + 1] = u32::MAX,
    }
}
