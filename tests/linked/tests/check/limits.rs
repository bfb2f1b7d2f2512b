//! Code at a limit and one step past it: each function takes what is counted, and gives parts for
//! each place where the limit holds. In all else they pass.

use linked::code::*;
use second::limits::{ARGUMENTS, BINDERS, NESTING};
use second::seed::Rng;

use crate::accepted::name;
use crate::parts::{dropped, in_levels, look, term, Entry, Parts, KEYED};

/// Blocks and bodies in one another, so many in all: only bodies, as many blocks as can be, any.
pub fn nesting(rng: &mut Rng, levels: usize) -> Vec<Parts> {
    let any = rng.below(BINDERS);
    [0, BINDERS, any].map(|blocks| leaf_in_levels(rng, blocks, levels - blocks)).into()
}

/// LAMBDAs open at once, so many: alone, and with as many bodies among them as the nesting allows.
pub fn lambdas(rng: &mut Rng, count: usize) -> Vec<Parts> {
    vec![leaf_in_levels(rng, count, 0), leaf_in_levels(rng, count, NESTING - count)]
}

fn leaf_in_levels(rng: &mut Rng, blocks: usize, bodies: usize) -> Parts {
    let inside = match rng.below(2) {
        0 if blocks > 0 => vec![PUSHVAR, rng.below(blocks) as u32],
        _ => vec![CELL, name(rng), 0],
    };
    Parts::new(KEYED.to_vec(), in_levels(rng, blocks, bodies, &inside))
}

/// So many entries, at depths that grow; the oldest, of depth 0, is built.
pub fn entries(rng: &mut Rng, count: usize) -> Vec<Parts> {
    let (mut matching, mut depth) = (vec![SET], 0);
    for _ in 1..count {
        if depth < BINDERS && rng.percent(30) {
            matching.push(ISABST);
            depth += 1;
        }
        if rng.percent(30) {
            matching.extend(look(rng, depth));
        }
        matching.push(SET);
    }
    matching.push(NEXT);
    vec![Parts::new(matching, vec![PUSHIMM, count as u32 - 1])]
}

/// So many current terms at once, of any depth; some are dropped on the way.
pub fn current_terms(rng: &mut Rng, count: usize) -> Vec<Parts> {
    let mut matching = vec![ISABST; rng.below(BINDERS + 1)];
    let mut current = 1;
    while current < count {
        if current > 1 && rng.percent(20) {
            matching.push(NEXT);
            current -= 1;
        }
        let arguments = rng.between(1, ARGUMENTS).min(count - current + 1);
        matching.extend([IS, name(rng), arguments as u32]);
        current += arguments - 1;
    }
    matching.extend(vec![NEXT; count]);
    vec![Parts::matching(rng, matching)]
}

/// A current term of this depth.
pub fn depth(rng: &mut Rng, depth: usize) -> Vec<Parts> {
    let mut matching = Vec::new();
    for above in 0..depth {
        if rng.percent(20) {
            matching.extend(look(rng, above));
        }
        matching.push(ISABST);
    }
    matching.push(NEXT);
    vec![Parts::matching(rng, matching)]
}

/// A CHECK with so many indices, whether they are distinct or not, before a SET and alone.
pub fn listed(rng: &mut Rng, count: usize) -> Vec<Parts> {
    let depth = *rng.pick(&[1, 2, BINDERS - 1, BINDERS]);
    let list: Vec<u32> = (0..count).map(|_| rng.below(depth) as u32).collect();
    let entry = Entry { bound: depth, guard: list };
    vec![
        Parts::matching(rng, entry.made()),
        Parts::matching(rng, entry.made_by(&check(&entry.guard))),
    ]
}

/// An EQI with so many pairs and a PUSHI with so many keys, some of them repeated.
pub fn listed_pairs(rng: &mut Rng, count: usize) -> Vec<Parts> {
    let entry = Entry::any(rng, 1);
    let keys = entry.covering(rng, count);
    entry.in_both(rng, &entry.set(), &keys)
}

/// An IS and a CELL of this name.
pub fn names(rng: &mut Rng, name: usize) -> Vec<Parts> {
    let (is, cell) = (vec![IS, name as u32, 0], vec![CELL, name as u32, 0]);
    vec![Parts::matching(rng, is), Parts::building(rng, cell)]
}

/// An IS and a CELL with so many arguments, which are all there.
pub fn arguments(rng: &mut Rng, count: usize) -> Vec<Parts> {
    let mut is = vec![IS, name(rng), count as u32];
    (0..count).for_each(|_| is.extend(dropped(rng)));
    let mut cell: Vec<u32> = (0..count).flat_map(|_| term(rng, 0)).collect();
    cell.extend([CELL, name(rng), count as u32]);
    vec![Parts::matching(rng, is), Parts::building(rng, cell)]
}

/// An index that is a limit less `below`: of an EQVAR, of a CHECK's list, of a pair both, of a
/// PUSHVAR, of a key.
pub fn indices(rng: &mut Rng, below: usize) -> Vec<Parts> {
    let depth = rng.between(1, BINDERS);
    let index = (depth - below) as u32;
    let lower = rng.below(depth) as u32;
    let entry = Entry { bound: depth, guard: (0..depth as u32).collect() };
    let alone = |instruction: &[u32]| entry.made_by(instruction);
    let compared = |depths: usize, pair: [u32; 2]| {
        entry.met_by(&entry.set(), depths, &eqi(0, difference(depths, depth), &[pair]))
    };
    let pushed = pushi(0, difference(0, depth), &[(index, term(rng, 0))]);
    let other_depth = rng.between(1, BINDERS);
    let other = (other_depth - below) as u32;
    vec![
        Parts::matching(rng, alone(&[EQVAR, index])),
        Parts::matching(rng, alone(&check(&[lower, index]))),
        Parts::matching(rng, alone(&check(&[index, lower]))),
        Parts::matching(rng, compared(depth, [index, lower])),
        Parts::matching(rng, compared(other_depth, [lower, other])),
        Parts::building(rng, in_blocks(depth, &[PUSHVAR, index])),
        Parts::new(entry.made(), pushed),
    ]
}

/// So many words, most of them in either part.
pub fn words(rng: &mut Rng, words: usize) -> Vec<u32> {
    // NEXT, and two empty CHECKs.
    const ROOM: usize = 5;
    let depth = rng.between(1, BINDERS);
    let building = term(rng, 0);
    let most = rng.between(0, words - building.len() - ROOM);
    let mut code = long_match_part(rng, depth, most);
    // What is missing is a multiple of three once there are so many empty CHECKs.
    let missing = words - code.len() - 1 - building.len();
    code.extend([CHECK, 0].repeat(2 * missing % 3));
    code.push(NEXT);
    code.extend(building);
    while code.len() < words {
        code.extend([CELL, name(rng), 1]);
    }
    code
}

/// CHECKs, EQVARs, ISs and EQIs for a current term of this depth, nearly so many words or few.
fn long_match_part(rng: &mut Rng, depth: usize, words: usize) -> Vec<u32> {
    // An EQI with eight pairs.
    const LONGEST: usize = 20;
    let entry = Entry::any(rng, 0);
    let mut code = [&[IS, 0, 2], &entry.made()[..], &vec![ISABST; depth]].concat();
    while code.len() + LONGEST <= words {
        if rng.percent(70) {
            code.extend(look(rng, depth));
            continue;
        }
        let firsts = entry.some_covering(rng);
        code.extend(entry.eqi(rng, depth, &firsts));
    }
    code
}
