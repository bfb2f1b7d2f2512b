//! The size, depth and highest free index of a result, before a node is built.
//!
//! A PUSHI can describe a term of exponential size. What it pushes follows from
//! its entry and from what its bodies make: an occurrence of a keyed variable
//! counts as many nodes as the body makes, starts where the variable stood and
//! adds the abstractions above it to OFFSET. So each instruction is looked at
//! once, whatever the result's size.

use crate::code::*;
use crate::keys::Keys;
use crate::limits::{ARGUMENTS, DEPTH, DIFFERENCE_BIAS, INDEX};
use crate::matching::{Entry, Matching};
use crate::refusals::Refusal;
use crate::tables::{nodes, Levels, Node, Step, ROOM};
use crate::working::*;

/// A depth over the limit; further depths over it are not told apart.
const OVER_DEPTH: u32 = DEPTH as u32 + 1;

/// What a sequence makes: exactly one term.
#[derive(Clone, Copy)]
struct Made {
    /// The last instruction of the sequence.
    last: usize,
    nodes: usize,
    depth: u32,
    /// The highest index free in it where OFFSET is 0. If none is free this is
    /// less than the limit by more than all OFFSETs, which is as good.
    highest: u32,
}

/// An entry's own part of what a PUSHI of it pushes.
struct Walked {
    depth: u32,
    /// The highest index free in the entry and not keyed, as written there, or 0.
    highest: u32,
    keyed: [Keyed; ARGUMENTS],
}

/// The occurrences of a key's variable in an entry.
#[derive(Clone, Copy, Default)]
struct Keyed {
    met: u16,
    /// The deepest, from the entry's root, which has depth 1.
    depth: u8,
    /// The most abstractions of the entry above one.
    inside: u8,
}

/// Measures a result; leaves in the working table what building it needs.
pub struct Measuring<'a> {
    pub code: &'a [u32],
    pub subject: &'a [u32],
    pub matching: &'a Matching<'a>,
    pub links: &'a mut [u32],
    pub places: &'a [u32],
    /// How many nodes the result may have, and the levels above its root: the
    /// list run's result is a part of a plan.
    pub most_nodes: usize,
    pub above: u32,
}

impl Measuring<'_> {
    /// The nodes of the result and the last instruction of the build part,
    /// which starts at `build`; or 13, 14, 15 in this order.
    pub fn result(mut self, build: usize) -> Result<(usize, usize), Refusal> {
        let whole = self.sequence(build, self.code.len())?;
        if self.above + whole.depth > DEPTH as u32 {
            return Err(Refusal::ResultTooDeep);
        }
        // Bound variables lie below the depth.
        if whole.highest > INDEX {
            return Err(Refusal::ResultIndexTooHigh);
        }
        Ok((whole.nodes, whole.last))
    }

    /// Measures a sequence and links its instructions, or refuses with 13:
    /// whatever is measured stands in the result at least once.
    fn sequence(&mut self, from: usize, end: usize) -> Result<Made, Refusal> {
        let mut made = Made { last: from, nodes: 0, depth: 0, highest: 0 };
        let mut at = from;
        while at < end {
            self.links[at] = made.last as u32;
            made.last = at;
            match self.code[at] {
                LAMBDA => {}
                PUSHIMM => made.nodes += self.pushed_as_it_is(at),
                PUSHI => {
                    let (nodes, highest) = self.pushed(at)?;
                    made.nodes += nodes;
                    made.highest = made.highest.max(highest);
                }
                _ => made.nodes += 1,
            }
            if made.nodes > self.most_nodes {
                return Err(Refusal::ResultTooLarge);
            }
            at = next_instruction(self.code, at);
        }
        made.depth = self.sequence_depth(made.last);
        Ok(made)
    }

    /// A PUSHIMM's nodes. It moves no index, so none passes the limit.
    fn pushed_as_it_is(&mut self, at: usize) -> usize {
        let entry = self.matching.entry(self.code[at + 1]);
        self.links[at + PUSHED_DEPTH] = self.walk(entry, &Keys::none()).depth;
        entry.nodes()
    }

    /// A PUSHI's nodes and the highest index free in what it pushes. Only the
    /// bodies that run are measured.
    fn pushed(&mut self, at: usize) -> Result<(usize, u32), Refusal> {
        let entry = self.matching.entry(self.code[at + 1]);
        let keys = Keys::of(self.code, at);
        let walked = self.walk(entry, &keys);
        let (mut nodes, mut depth) = (entry.nodes(), walked.depth);
        let mut highest = (walked.highest + self.code[at + 2]).saturating_sub(DIFFERENCE_BIAS);
        let mut occurs = 0;
        for (number, keyed) in walked.keyed.iter().enumerate().filter(|(_, keyed)| keyed.met > 0) {
            let key = keys.place(number);
            let body = self.sequence(key + KEY_WORDS, body_end(self.code, key))?;
            self.links[key + BODY_LAST] = body.last as u32;
            self.links[key + BODY_SIZE] = body.nodes as u32;
            nodes += usize::from(keyed.met) * (body.nodes - 1);
            depth = depth.max(u32::from(keyed.depth) - 1 + body.depth);
            highest = highest.max(u32::from(keyed.inside) + body.highest);
            occurs = 1;
        }
        self.links[at + PUSHED_DEPTH] = depth.min(OVER_DEPTH);
        self.links[at + PUSHED_SIZE] = nodes as u32;
        self.links[at + KEY_OCCURS] = occurs;
        Ok((nodes, highest))
    }

    /// Walks an entry. A body makes at least one level, so a keyed variable
    /// may count for the depth too.
    fn walk(&self, entry: Entry, keys: &Keys) -> Walked {
        let places = &self.places[entry.range()];
        let words = &self.subject[entry.words()];
        let root = places[0];
        let mut deepest = root;
        let mut walked = Walked { depth: 0, highest: 0, keyed: [Keyed::default(); ARGUMENTS] };
        for (&place, node) in places.iter().zip(nodes(words)) {
            deepest = deepest.max(place);
            if node.first > INDEX {
                continue;
            }
            let inside = abstractions(place) - abstractions(root);
            if node.first < inside {
                continue;
            }
            match keys.find(node.first - inside) {
                None => walked.highest = walked.highest.max(node.first),
                Some(number) => walked.keyed[number].meet(depth(place) - depth(root) + 1, inside),
            }
        }
        walked.depth = depth(deepest) - depth(root) + 1;
        walked
    }

    /// The depth of what a sequence makes, from its last instruction back: in
    /// this order each instruction comes before those that make its arguments.
    fn sequence_depth(&self, last: usize) -> u32 {
        let mut room = ROOM;
        let mut levels = Levels::at_root(&mut room);
        let mut deepest = 0;
        let mut at = last;
        loop {
            let here = levels.depth() as u32;
            let (pushed, step) = match self.code[at] {
                CELL => (1, levels.pass(Node::symbol(0, self.code[at + 2]))),
                LAMBDA => (0, Step::More),
                ADBMAL => (1, levels.pass(Node::abstraction())),
                PUSHVAR => (1, levels.pass_leaf()),
                _ => (self.links[at + PUSHED_DEPTH], levels.pass_leaf()),
            };
            deepest = deepest.max(here - 1 + pushed);
            match step {
                Step::More => at = self.links[at] as usize,
                Step::Done => return deepest.min(OVER_DEPTH),
                Step::TooDeep => return OVER_DEPTH,
            }
        }
    }
}

impl Keyed {
    fn meet(&mut self, depth: u32, inside: u32) {
        self.met += 1;
        self.depth = self.depth.max(depth as u8);
        self.inside = self.inside.max(inside as u8);
    }
}
