//! Code that no compiler writes and that passes, and its twin that is wrong in one thing: each
//! function takes which of the two, and gives parts for each place where that thing can be wrong.

use linked::code::*;
use second::limits::{ARGUMENTS, BINDERS, ENTRIES, NESTING};
use second::seed::Rng;

use crate::accepted::name;
use crate::damage::far_too_high;
use crate::parts::{in_levels, term, Entry, Parts, KEYED};

/// Where a word stands in its instruction: the count of a CHECK's list; d of an EQI or PUSHI, and
/// the count of its pairs or keys; a PUSHI's first body's count of words.
const LISTED: usize = 1;
const DIFFERENCE: usize = 2;
const PAIRS: usize = 3;
const BODY_WORDS: usize = 5;

/// The CHECK directly before a SET is its guard. Wrong: another instruction stands between them, a
/// SET too, or another CHECK, which lacks an index.
pub fn guards(rng: &mut Rng, wrong: bool) -> Vec<Parts> {
    let mut entry = Entry::any(rng, 0);
    while entry.guard.is_empty() {
        entry = Entry::any(rng, 0);
    }
    let guard = check(&entry.guard);
    let shorter = check(&entry.guard[1..]);
    let between = if wrong {
        *rng.pick(&[&[CHECK, 0][..], &[EQVAR, 0], &[IS, 1, 1], &[SET], &shorter])
    } else {
        &[]
    };
    let before = *rng.pick(&[&[][..], &[SET], &[CHECK, 0], &shorter]);
    let set = [before, &guard, between, &[SET]].concat();
    entry.in_both(rng, &set, &entry.left())
}

/// First indices and keys cover what the guard leaves. Wrong: but for one index.
pub fn covering(rng: &mut Rng, wrong: bool) -> Vec<Parts> {
    let entry = Entry::any(rng, 1);
    let mut keys = entry.some_covering(rng);
    if wrong {
        let missing = *rng.pick(&entry.left());
        keys.retain(|key| *key != missing);
    }
    entry.in_both(rng, &entry.set(), &keys)
}

/// d is the depth or the LAMBDAs less b. Wrong: it is higher or lower by one or by far, and may be
/// right in its low bits.
pub fn differences(rng: &mut Rng, wrong: bool) -> Vec<Parts> {
    let entry = Entry::any(rng, 0);
    let keys = entry.some_covering(rng);
    let right: fn(&mut Rng, &mut [u32]) = |_, _| ();
    let change: fn(&mut Rng, &mut [u32]) = |rng, instruction| {
        let word = instruction[DIFFERENCE];
        let (far, byte) = (far_too_high(rng, word), word + 256 * rng.between(1, 4) as u32);
        let others = [word + 1, word - 1, 0, 0u32.wrapping_sub(word), u32::MAX, far, byte];
        instruction[DIFFERENCE] = *rng.pick(&others);
    };
    entry.in_both_changed(rng, &entry.set(), &keys, if wrong { change } else { right })
}

/// The oldest entry. Wrong: one older than all, of which there may be none, near or far.
pub fn entries(rng: &mut Rng, wrong: bool) -> Vec<Parts> {
    let bound = rng.below(4);
    let entry = Entry { bound, guard: (0..bound as u32).collect() };
    let count = rng.between(usize::from(!wrong), ENTRIES) as u32;
    let set = entry.set().repeat(count as usize);
    let (more, far) = (count + rng.below(ENTRIES) as u32, far_too_high(rng, count));
    let number = if wrong { *rng.pick(&[count, more, far]) } else { count - 1 };
    let here = difference(bound, bound);
    let pushed =
        |instruction: &[u32]| Parts::new(entry.made_by(&set), in_blocks(bound, instruction));
    let mut all = vec![pushed(&[PUSHIMM, number]), pushed(&pushi(number, here, &[]))];
    for instruction in [&[EQIMM, number][..], &eqi(number, here, &[])] {
        all.push(Parts::matching(rng, entry.met_by(&set, bound, instruction)));
    }
    all
}

/// EQIMM and PUSHIMM under as many abstractions or LAMBDAs as their entry. Wrong: more or fewer.
pub fn same_depth(rng: &mut Rng, wrong: bool) -> Vec<Parts> {
    let entry = Entry::any(rng, 0);
    let here = match entry.bound {
        bound if !wrong => bound,
        0 => 1,
        BINDERS => BINDERS - 1,
        bound => *rng.pick(&[bound - 1, bound + 1]),
    };
    vec![
        Parts::matching(rng, entry.met_by(&entry.set(), here, &[EQIMM, 0])),
        Parts::new(entry.made(), in_blocks(here, &[PUSHIMM, 0])),
    ]
}

/// PUSHIMM in as many blocks as its entry has abstractions. Wrong: in bodies too, next to it or
/// further out.
pub fn pushimm_in_bodies(rng: &mut Rng, wrong: bool) -> Vec<Parts> {
    let mut entry = Entry::any(rng, 0);
    entry.bound = entry.bound.min(BINDERS - 1);
    entry.guard.clear();
    let bodies = if wrong { rng.between(1, NESTING - entry.bound) } else { 0 };
    // `KEYED` makes the newest entry, so this one is the next.
    let matching = [&[IS, 0, 2], &entry.made()[..], &KEYED].concat();
    vec![Parts::new(matching, in_levels(rng, entry.bound, bodies, &[PUSHIMM, 1]))]
}

/// Bodies that fill their words. Wrong: one of them has one word more or less than it says.
pub fn body_words(rng: &mut Rng, wrong: bool) -> Vec<Parts> {
    let entry = Entry::any(rng, 1);
    let keys = entry.some_covering(rng);
    let lambdas = rng.below(4);
    let mut pushed = entry.pushi(rng, lambdas, &keys);
    if wrong {
        // Between two counts stand a body and the next key.
        let mut length = BODY_WORDS;
        for _ in 0..rng.below(keys.len()) {
            length += pushed[length] as usize + 2;
        }
        pushed[length] = if rng.percent(50) { pushed[length] + 1 } else { pushed[length] - 1 };
    }
    vec![Parts::new(entry.made(), in_blocks(lambdas, &pushed))]
}

/// A body in a body. Wrong: by the words that it says to have, it reaches out of the one around it,
/// into instructions that are right in either.
pub fn bodies_in_bodies(rng: &mut Rng, wrong: bool) -> Vec<Parts> {
    let (bodies, after) = (rng.below(3), [CELL, name(rng), 1].repeat(rng.between(1, 3)));
    let body = term(rng, 0);
    let mut inner = in_levels(rng, 0, 1, &body);
    if wrong {
        inner[BODY_WORDS] += after.len() as u32;
    }
    let outer = in_levels(rng, 0, 1, &inner);
    let building = in_levels(rng, 0, bodies, &[outer, after].concat());
    vec![Parts::new(KEYED.to_vec(), building)]
}

/// The counts of a CHECK, of an EQI, of a PUSHI and of a body's words. Wrong: one is far too high,
/// and may be right in its low bits.
pub fn counts(rng: &mut Rng, wrong: bool) -> Vec<Parts> {
    let with_count = |rng: &mut Rng, mut instruction: Vec<u32>, count: usize| {
        if wrong {
            instruction[count] = far_too_high(rng, instruction[count]);
        }
        instruction
    };
    let (entry, depth) = (Entry::any(rng, 1), rng.between(1, BINDERS));
    let keys = entry.some_covering(rng);
    let set = with_count(rng, entry.set(), LISTED);
    let compared = entry.eqi(rng, depth, &keys);
    let compared = with_count(rng, compared, PAIRS);
    let mut all = vec![
        Parts::matching(rng, entry.made_by(&set)),
        Parts::matching(rng, entry.met_by(&entry.set(), depth, &compared)),
    ];
    for count in [PAIRS, BODY_WORDS] {
        let pushed = entry.pushi(rng, 0, &keys);
        all.push(Parts::new(entry.made(), with_count(rng, pushed, count)));
    }
    all
}

/// A CELL of all the terms that are made where it stands, with others outside. Wrong: of one more.
pub fn reach(rng: &mut Rng, wrong: bool) -> Vec<Parts> {
    let has = rng.below(ARGUMENTS);
    let takes = (has + usize::from(wrong)) as u32;
    let inside = [&[CELL, name(rng), 0].repeat(has)[..], &[CELL, name(rng), takes]].concat();
    let outside = [term(rng, 0), term(rng, 0)].concat();
    let within = |levels: Vec<u32>| {
        Parts::new(KEYED.to_vec(), [&outside[..], &levels, &[CELL, 1, 3]].concat())
    };
    let (blocks, bodies) = (rng.below(4), rng.below(4));
    vec![
        within(in_levels(rng, 1, 0, &inside)),
        within(in_levels(rng, 0, 1, &inside)),
        within(in_levels(rng, blocks + 1, bodies, &inside)),
        Parts::building(rng, inside),
    ]
}

/// The whole, a block and a body that make one term. Wrong: none, or more than one.
pub fn one_term(rng: &mut Rng, wrong: bool) -> Vec<Parts> {
    let terms = if wrong { *rng.pick(&[0, 2, 3, 9]) } else { 1 };
    let inside: Vec<u32> = (0..terms).flat_map(|_| term(rng, 0)).collect();
    let (blocks, bodies) = (rng.below(4), rng.below(4));
    let levels = [(0, 0), (1, 0), (0, 1), (blocks, bodies)];
    let building = levels.map(|(blocks, bodies)| in_levels(rng, blocks, bodies, &inside));
    building.map(|building| Parts::new(KEYED.to_vec(), building)).into()
}

/// Blocks that are closed where they were opened. Wrong: not closed, closed twice, closed by a body
/// in them, or opened by a body that they do not end in.
pub fn closing(rng: &mut Rng, wrong: bool) -> Vec<Parts> {
    let made = term(rng, 0);
    let body =
        |lambdas: usize, inside: &[u32]| pushi(0, difference(lambdas, 1), &[(0, inside.to_vec())]);
    let closed = |inside: &[u32]| [inside, &[ADBMAL]].concat();
    let opened = |inside: &[u32]| [&[LAMBDA], inside].concat();
    let inside = if wrong {
        vec![
            opened(&made),
            closed(&made),
            closed(&closed(&opened(&made))),
            opened(&body(1, &closed(&made))),
            closed(&body(0, &opened(&made))),
        ]
    } else {
        vec![closed(&opened(&body(1, &made))), body(0, &closed(&opened(&made)))]
    };
    let bodies = rng.below(4);
    let within = |inside: &Vec<u32>| Parts::new(KEYED.to_vec(), in_levels(rng, 0, bodies, inside));
    inside.iter().map(within).collect()
}
