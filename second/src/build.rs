//! The build instructions of the machine (004 section 4.2).
//!
//! Sizes are known, so the result is written in prefix order at once, each node
//! once: a sequence is read from its last instruction back and fills its place
//! from behind, a pushed entry is read from its front and fills its place from
//! the front. NSTACK need not be kept: its number for a LAMBDA is OFFSET now
//! less OFFSET at that LAMBDA.

use crate::code::*;
use crate::keys::Keys;
use crate::limits::{BINDERS, DEPTH, DIFFERENCE_BIAS, INDEX, NODE_WORDS};
use crate::matching::Matching;
use crate::tables::{nodes, Node};
use crate::working::*;

/// STACK, OFFSET and NSTACK, for a result that was measured.
pub struct Building<'a> {
    code: &'a [u32],
    subject: &'a [u32],
    matching: &'a Matching<'a>,
    links: &'a [u32],
    places: &'a [u32],
    result: &'a mut [u32],
    /// Nodes above the place that is written: where each is made in the code,
    /// and how many arguments it still waits for.
    waiting: [(u16, u16); DEPTH],
    waits: usize,
    /// OFFSET at each open LAMBDA, the outermost first.
    offsets: [u32; BINDERS],
}

/// Where a sequence stands.
#[derive(Clone, Copy)]
struct Context {
    lambdas: usize,
    offset: u32,
}

impl<'a> Building<'a> {
    pub fn new(
        code: &'a [u32],
        subject: &'a [u32],
        matching: &'a Matching<'a>,
        (links, places): (&'a [u32], &'a [u32]),
        result: &'a mut [u32],
    ) -> Building<'a> {
        let (waiting, offsets) = ([(0, 0); DEPTH], [0; BINDERS]);
        Building { code, subject, matching, links, places, result, waiting, waits: 0, offsets }
    }

    /// Writes the result's nodes, made by the build part that ends with `last`.
    pub fn result(mut self, nodes: usize, last: usize) {
        self.made_by(last, nodes, Context { lambdas: 0, offset: 0 });
    }

    #[inline]
    fn write(&mut self, at: usize, node: Node) {
        self.result[NODE_WORDS * at] = node.first;
        self.result[NODE_WORDS * at + 1] = node.count;
    }

    /// Writes the term of the sequence that ends with `last`, before the node
    /// `behind`. Most bodies are one instruction.
    #[inline]
    fn made_by(&mut self, last: usize, behind: usize, context: Context) {
        if arguments(self.code, last) == 0 {
            self.leaf(last, behind, context);
        } else {
            self.sequence(last, behind, context);
        }
    }

    /// The same instruction by instruction, from the last one back.
    #[inline(never)]
    fn sequence(&mut self, last: usize, mut behind: usize, mut context: Context) {
        let outside = self.waits;
        let mut at = last;
        loop {
            match arguments(self.code, at) {
                0 if self.code[at] == LAMBDA => context.lambdas -= 1,
                0 => {
                    behind = self.leaf(at, behind, context);
                    behind = self.close(outside, behind);
                    if self.waits == outside {
                        return;
                    }
                }
                count => {
                    if self.code[at] == ADBMAL {
                        self.offsets[context.lambdas] = context.offset;
                        context.lambdas += 1;
                    }
                    self.wait(at, count);
                }
            }
            at = self.links[at] as usize;
        }
    }

    fn wait(&mut self, at: usize, count: u32) {
        self.waiting[self.waits] = (at as u16, count as u16);
        self.waits += 1;
    }

    /// After a whole term: writes those waiting nodes that it completes.
    fn close(&mut self, outside: usize, mut behind: usize) -> usize {
        while self.waits > outside {
            let (at, owed) = &mut self.waiting[self.waits - 1];
            *owed -= 1;
            if *owed > 0 {
                break;
            }
            let node = made_node(self.code, usize::from(*at));
            self.waits -= 1;
            behind -= 1;
            self.write(behind, node);
        }
        behind
    }

    /// Writes what an instruction without arguments pushes.
    #[inline]
    fn leaf(&mut self, at: usize, behind: usize, context: Context) -> usize {
        match self.code[at] {
            PUSHI => self.push(at, behind, context),
            PUSHIMM => self.push_as_it_is(at, behind),
            PUSHVAR => {
                let index = self.code[at + 1];
                let opened = self.offsets[context.lambdas - 1 - index as usize];
                self.write(behind - 1, Node::variable(index + context.offset - opened));
                behind - 1
            }
            _ => {
                self.write(behind - 1, made_node(self.code, at));
                behind - 1
            }
        }
    }

    /// An entry, word for word.
    #[inline(never)]
    fn push_as_it_is(&mut self, at: usize, behind: usize) -> usize {
        let words = &self.subject[self.matching.entry(self.code[at + 1]).words()];
        let end = NODE_WORDS * behind;
        self.result[end - words.len()..end].copy_from_slice(words);
        behind - words.len() / NODE_WORDS
    }

    /// 004's `push`: an entry with its free indices moved and its keyed
    /// variables replaced by what their bodies make.
    #[inline(never)]
    fn push(&mut self, at: usize, behind: usize, context: Context) -> usize {
        let moved = self.code[at + 2] + context.offset;
        if self.links[at + KEY_OCCURS] == 0 && moved == DIFFERENCE_BIAS {
            return self.push_as_it_is(at, behind);
        }
        let first = behind - self.links[at + PUSHED_SIZE] as usize;
        let entry = self.matching.entry(self.code[at + 1]);
        let keys = Keys::of(self.code, at);
        let (subject, places) = (&self.subject[entry.words()], &self.places[entry.range()]);
        let root = abstractions(places[0]);
        let mut next = first;
        for (node, &place) in nodes(subject).zip(places) {
            let inside = abstractions(place) - root;
            if node.first > INDEX || node.first < inside {
                self.write(next, node);
            } else if let Some(number) = keys.find(node.first - inside) {
                let key = keys.place(number);
                let size = self.links[key + BODY_SIZE] as usize;
                let offset = context.offset + inside;
                let last = self.links[key + BODY_LAST] as usize;
                self.made_by(last, next + size, Context { offset, ..context });
                next += size - 1;
            } else {
                let index = (node.first + moved).saturating_sub(DIFFERENCE_BIAS);
                self.write(next, Node::variable(index));
            }
            next += 1;
        }
        first
    }
}

/// How many finished terms the instruction takes for its node's arguments.
#[inline]
fn arguments(code: &[u32], at: usize) -> u32 {
    match code[at] {
        CELL => code[at + 2],
        ADBMAL => 1,
        _ => 0,
    }
}

/// The node that a CELL or ADBMAL makes.
fn made_node(code: &[u32], at: usize) -> Node {
    if code[at] == ADBMAL {
        Node::abstraction()
    } else {
        Node::symbol(code[at + 1], code[at + 2])
    }
}
