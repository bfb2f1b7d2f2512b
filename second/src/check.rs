//! When code passes.

use crate::code::*;
use crate::limits::{
    ARGUMENTS, BINDERS, CODE_WORDS, CURRENT_TERMS, DIFFERENCE_BIAS, ENTRIES, INDEX, NESTING,
};
use crate::refusals::{Refusal, DONE};

/// Says whether code passes: 0 or 11.
pub fn check(code: &[u32]) -> u32 {
    if passes(code) {
        DONE
    } else {
        Refusal::CodeDoesNotPass.number()
    }
}

/// Whether code passes.
pub(crate) fn passes(code: &[u32]) -> bool {
    if code.is_empty() || code.len() > CODE_WORDS {
        return false;
    }
    let mut entries = Entries::new();
    let Some(build) = match_part(code, &mut entries) else { return false };
    let whole = Sequence { end: code.len(), lambdas: 0, nested: 0, in_body: false, block: false };
    build_sequence(code, &entries, build, whole).is_some()
}

/// The entries that the match part makes: depths and guards.
struct Entries {
    depths: [u32; ENTRIES],
    guards: [Indices; ENTRIES],
    made: usize,
}

impl Entries {
    fn new() -> Entries {
        Entries { depths: [0; ENTRIES], guards: [Indices(0); ENTRIES], made: 0 }
    }

    /// Depth and guard of an entry, counted from the newest.
    fn get(&self, entry: u32) -> Option<(u32, Indices)> {
        let place = self.made.checked_sub(1)?.checked_sub(entry as usize)?;
        Some((self.depths[place], self.guards[place]))
    }

    fn set(&mut self, depth: u32, guard: Indices) -> Option<()> {
        if self.made == ENTRIES {
            return None;
        }
        self.depths[self.made] = depth;
        self.guards[self.made] = guard;
        self.made += 1;
        Some(())
    }
}

/// The depths of the current terms, the top last.
struct Current {
    depths: [u8; CURRENT_TERMS],
    terms: usize,
}

impl Current {
    fn top(&self) -> Option<u32> {
        Some(u32::from(self.depths[self.terms.checked_sub(1)?]))
    }

    /// Replaces the top by `count` terms of this depth.
    fn replace(&mut self, count: usize, depth: u32) -> Option<()> {
        let below = self.terms - 1;
        if below + count > CURRENT_TERMS || depth as usize > BINDERS {
            return None;
        }
        self.depths[below..below + count].fill(depth as u8);
        self.terms = below + count;
        Some(())
    }
}

/// Checks the match part and says where the build part begins.
fn match_part(code: &[u32], entries: &mut Entries) -> Option<usize> {
    let mut current = Current { depths: [0; CURRENT_TERMS], terms: 1 };
    // The list of the instruction directly before, if that is a CHECK.
    let mut guard = Indices(0);
    let mut at = 0;
    loop {
        let found = instruction(code, at, code.len())?;
        if found.op > EQI {
            return if current.terms == 0 { Some(at) } else { None };
        }
        let before = guard;
        guard = Indices(0);
        at = found.behind;
        let top = current.top()?;
        match (found.op, found.operands) {
            (IS, &[name, count]) => {
                symbol(name, count)?;
                current.replace(count as usize, top)?;
            }
            (ISABST, _) => current.replace(1, top + 1)?,
            (NEXT, _) => current.replace(0, top)?,
            (CHECK, &[count]) => {
                guard = check_list(code, at, count, top)?;
                at += count as usize;
            }
            (SET, _) => entries.set(top, before)?,
            (EQVAR, &[index]) => need(index < top)?,
            (EQIMM, &[entry]) => need(entries.get(entry)?.0 == top)?,
            (_, &[entry, difference, count]) => {
                let (bound, guard) = entries.get(entry)?;
                need(difference.checked_add(bound)? == top + DIFFERENCE_BIAS)?;
                at = eqi_pairs(code, at, count, (bound, guard), top)?;
            }
            _ => return None,
        }
    }
}

fn need(holds: bool) -> Option<()> {
    holds.then_some(())
}

/// A name and a count that a table can hold.
fn symbol(name: u32, count: u32) -> Option<()> {
    need(name <= INDEX && count as usize <= ARGUMENTS)
}

/// The indices that a CHECK lists, each below the top's depth.
fn check_list(code: &[u32], behind: usize, count: u32, top: u32) -> Option<Indices> {
    need(count as usize <= BINDERS)?;
    let mut list = Indices(0);
    for &index in listed(code, behind, code.len(), count as usize, 1)? {
        need(index < top)?;
        list.insert(index);
    }
    Some(list)
}

/// Checks an EQI's pairs and says where they end.
fn eqi_pairs(
    code: &[u32],
    behind: usize,
    count: u32,
    (bound, guard): (u32, Indices),
    top: u32,
) -> Option<usize> {
    need(count as usize <= ARGUMENTS)?;
    let words = listed(code, behind, code.len(), count as usize, PAIR_WORDS)?;
    let mut firsts = Indices(0);
    for (first, second) in pairs(words) {
        need(first < bound && second < top)?;
        firsts.insert(first);
    }
    need(firsts.cover(guard, bound))?;
    Some(behind + words.len())
}

/// A run of build instructions that makes exactly one term: the whole build
/// part, a body, or a block up to its ADBMAL.
#[derive(Clone, Copy)]
struct Sequence {
    /// Where the words of the whole, or of the nearest body, end.
    end: usize,
    /// LAMBDAs open.
    lambdas: u32,
    /// Blocks and bodies open.
    nested: usize,
    in_body: bool,
    /// Ends with an ADBMAL; the others end where their words end.
    block: bool,
}

impl Sequence {
    fn inside_block(self) -> Option<Sequence> {
        need(self.nested < NESTING && (self.lambdas as usize) < BINDERS)?;
        Some(Sequence { lambdas: self.lambdas + 1, nested: self.nested + 1, block: true, ..self })
    }

    fn inside_body(self, end: usize) -> Option<Sequence> {
        need(self.nested < NESTING && end <= self.end)?;
        Some(Sequence { end, nested: self.nested + 1, in_body: true, block: false, ..self })
    }
}

/// Checks one sequence and says where it ends, goes down into blocks and bodies.
fn build_sequence(code: &[u32], entries: &Entries, from: usize, within: Sequence) -> Option<usize> {
    let mut terms = 0u32;
    let mut at = from;
    while at < within.end {
        let found = instruction(code, at, within.end)?;
        at = found.behind;
        match (found.op, found.operands) {
            (CELL, &[name, count]) => {
                symbol(name, count)?;
                terms = terms.checked_sub(count)?;
            }
            (LAMBDA, _) => at = build_sequence(code, entries, at, within.inside_block()?)?,
            (ADBMAL, _) => {
                need(within.block && terms == 1)?;
                return Some(at);
            }
            (PUSHVAR, &[index]) => need(index < within.lambdas)?,
            (PUSHIMM, &[entry]) => {
                need(!within.in_body && entries.get(entry)?.0 == within.lambdas)?;
            }
            (PUSHI, &[entry, difference, count]) => {
                let (bound, guard) = entries.get(entry)?;
                need(difference.checked_add(bound)? == within.lambdas + DIFFERENCE_BIAS)?;
                at = pushi_bodies(code, entries, at, count, (bound, guard), within)?;
            }
            _ => return None,
        }
        terms += 1;
    }
    need(!within.block && terms == 1)?;
    Some(at)
}

/// Checks a PUSHI's keys and bodies and says where they end.
fn pushi_bodies(
    code: &[u32],
    entries: &Entries,
    behind: usize,
    count: u32,
    (bound, guard): (u32, Indices),
    within: Sequence,
) -> Option<usize> {
    need(count as usize <= ARGUMENTS)?;
    let mut keys = Indices(0);
    let mut at = behind;
    for _ in 0..count {
        let &[key, words] = listed(code, at, within.end, 1, KEY_WORDS)? else { return None };
        need(key < bound && words as usize <= CODE_WORDS)?;
        keys.insert(key);
        let body = at + KEY_WORDS;
        at = build_sequence(code, entries, body, within.inside_body(body + words as usize)?)?;
    }
    need(keys.cover(guard, bound))?;
    Some(at)
}
