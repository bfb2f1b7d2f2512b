//! Instructions where none of their kind may stand. No such code passes.

use linked::code::*;
use second::limits::ARGUMENTS;
use second::seed::Rng;

use crate::accepted::name;
use crate::damage::far_too_high;
use crate::parts::{dropped, in_levels, term, Parts, KEYED};

/// Opcodes are below this.
const OPCODES: u32 = 14;

/// Match instructions that are right for a current term of depth 0, with this entry of b = 0.
fn match_instructions(rng: &mut Rng, entry: u32) -> [Vec<u32>; 7] {
    [
        vec![IS, name(rng), 0],
        vec![ISABST],
        vec![NEXT],
        check(&[]),
        vec![SET],
        vec![EQIMM, entry],
        eqi(entry, difference(0, 0), &[]),
    ]
}

/// A match instruction with no current term left.
pub fn no_current_term(rng: &mut Rng) -> Vec<Parts> {
    let misplaced = match_instructions(rng, 0);
    let after =
        |instruction: Vec<u32>| Parts::matching(rng, [&[SET, NEXT], &instruction[..]].concat());
    misplaced.map(after).into()
}

/// A match instruction before a term's build instructions, after them or instead of them.
pub fn match_in_build(rng: &mut Rng) -> Vec<Parts> {
    // `KEYED` makes the newest entry.
    let matching = [&[SET], &KEYED[..]].concat();
    let misplaced = match_instructions(rng, 1);
    let among = |instruction: Vec<u32>| {
        let term = term(rng, 0);
        let inside = match rng.below(3) {
            0 => [instruction, term].concat(),
            1 => [term, instruction].concat(),
            _ => instruction,
        };
        let (blocks, bodies) = (rng.below(3), rng.below(3));
        Parts::new(matching.clone(), in_levels(rng, blocks, bodies, &inside))
    };
    misplaced.map(among).into()
}

/// The build part begins while there are current terms.
pub fn build_too_early(rng: &mut Rng) -> Vec<Parts> {
    let count = rng.between(1, ARGUMENTS);
    let mut matching = vec![IS, name(rng), count as u32];
    (0..rng.below(count)).for_each(|_| matching.extend(dropped(rng)));
    vec![Parts::matching(rng, matching), Parts::matching(rng, Vec::new())]
}

/// The first opcode of a match part, of a build part and of what is in blocks and bodies is none.
pub fn no_such_opcode(rng: &mut Rng) -> Vec<Parts> {
    let [mut matching, mut building, mut inside] = [dropped(rng), term(rng, 0), term(rng, 0)];
    for words in [&mut matching, &mut building, &mut inside] {
        words[0] = no_opcode(rng, words[0]);
    }
    let (blocks, bodies) = (rng.below(3), rng.below(3));
    vec![
        Parts::matching(rng, matching),
        Parts::building(rng, building),
        Parts::new(KEYED.to_vec(), in_levels(rng, blocks, bodies, &inside)),
    ]
}

/// The first one that is none, one near it, or one with the low bits of this opcode.
fn no_opcode(rng: &mut Rng, opcode: u32) -> u32 {
    let (near, byte) = (OPCODES + rng.below(20) as u32, 256 * rng.between(1, 255) as u32);
    let far = far_too_high(rng, opcode);
    *rng.pick(&[OPCODES, near, opcode + byte, far])
}
