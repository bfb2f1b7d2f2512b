//! The match instructions of the machine (004 section 4.2).
//!
//! In prefix order the current terms are consecutive: the top starts at node
//! `top` and `current` of them follow one another. So matching needs no table.

use std::ops::Range;

use crate::code::*;
use crate::limits::{DIFFERENCE_BIAS, ENTRIES, NODE_WORDS, SUBJECT_NODES};
use crate::refusals::Refusal;
use crate::tables::{
    accept, node_at, nodes, part_at, subterm_nodes, Kind, Levels, Node, Step, ROOM,
};

/// Accepts a subject, or refuses: 2, 1, 3, 4. Shows each node on the way.
#[inline]
pub fn accept_subject(subject: &[u32], mut see: impl FnMut(&Levels)) -> Result<(), Refusal> {
    let mut metavariable = false;
    accept(subject, SUBJECT_NODES, |node, levels| {
        metavariable |= node.kind() == Kind::Metavariable;
        see(levels);
    })?;
    if metavariable {
        return Err(Refusal::MetavariableInSubject);
    }
    Ok(())
}

/// An entry: the nodes of a subterm of the subject.
#[derive(Clone, Copy, Default)]
pub struct Entry {
    pub first: u16,
    pub behind: u16,
}

impl Entry {
    /// Its nodes' numbers.
    #[inline]
    pub fn range(self) -> Range<usize> {
        usize::from(self.first)..usize::from(self.behind)
    }

    /// How many nodes it has.
    #[inline]
    pub fn nodes(self) -> usize {
        usize::from(self.behind - self.first)
    }

    /// Its words in the subject.
    #[inline]
    pub fn words(self) -> Range<usize> {
        NODE_WORDS * usize::from(self.first)..NODE_WORDS * usize::from(self.behind)
    }
}

/// CURR and ENV, for code that passed and an accepted subject.
pub struct Matching<'a> {
    subject: &'a [u32],
    /// The node of the current term, or the subject's node count if none.
    pub top: usize,
    /// How many terms are current.
    pub current: usize,
    entries: [Entry; ENTRIES],
    /// How many entries there are.
    pub made: usize,
    /// The node behind the top if some instruction found it, else 0.
    behind: usize,
}

impl<'a> Matching<'a> {
    /// The subject is the one current term.
    pub fn new(subject: &'a [u32]) -> Matching<'a> {
        Matching::after(subject, 0, 1)
    }

    /// After symbols that the caller has looked at: so many terms are current,
    /// from node `top` of the subject on.
    #[inline]
    pub fn after(subject: &'a [u32], top: usize, current: usize) -> Matching<'a> {
        let entries = [Entry::default(); ENTRIES];
        Matching { subject, top, current, entries, made: 0, behind: 0 }
    }

    /// An entry, counted from the newest.
    #[inline]
    pub fn entry(&self, entry: u32) -> Entry {
        self.entries[self.made - 1 - entry as usize]
    }

    /// Executes the match instruction at `at`; gives the place of the next, or
    /// none if its test says no.
    pub fn exec(&mut self, code: &[u32], at: usize) -> Option<usize> {
        let next = next_instruction(code, at);
        let operands = &code[at + 1..next];
        let holds = match code[at] {
            IS => self.is(Node::symbol(operands[0], operands[1])),
            ISABST => self.is(Node::abstraction()),
            NEXT => self.next(),
            CHECK => self.check(&operands[1..]),
            SET => self.set(),
            EQVAR => node_at(self.subject, self.top) == Node::variable(operands[0]),
            EQIMM => self.same(operands[0]),
            _ => self.equal(operands[0], operands[1], &operands[3..]),
        };
        holds.then_some(next)
    }

    /// IS and ISABST: the top is this node, and its arguments take its place.
    fn is(&mut self, node: Node) -> bool {
        if node_at(self.subject, self.top) != node {
            return false;
        }
        self.top += 1;
        self.current += node.count as usize;
        self.current -= 1;
        self.behind = 0;
        true
    }

    fn next(&mut self) -> bool {
        self.top = self.behind_top();
        self.current -= 1;
        self.behind = 0;
        true
    }

    fn set(&mut self) -> bool {
        let behind = self.behind_top();
        self.entries[self.made] = Entry { first: self.top as u16, behind: behind as u16 };
        self.made += 1;
        true
    }

    /// The node behind the top; SET and the NEXT after it pass the term once.
    fn behind_top(&mut self) -> usize {
        if self.behind == 0 {
            self.behind = self.top + subterm_nodes(part_at(self.subject, self.top));
        }
        self.behind
    }

    /// None of the listed indices is free in the top.
    fn check(&self, list: &[u32]) -> bool {
        let mut forbidden = Indices(0);
        for &index in list {
            forbidden.insert(index);
        }
        forbidden == Indices(0) || free_of(part_at(self.subject, self.top), forbidden)
    }

    /// EQIMM: the top is the entry, word for word.
    fn same(&self, entry: u32) -> bool {
        let old = &self.subject[self.entry(entry).words()];
        part_at(self.subject, self.top).starts_with(old)
    }

    /// EQI: the top is the entry with its indices renamed.
    fn equal(&self, entry: u32, difference: u32, words: &[u32]) -> bool {
        let old = part_at(self.subject, usize::from(self.entry(entry).first));
        equal(old, part_at(self.subject, self.top), difference, words)
    }
}

/// Whether no forbidden index, as seen from its root, is free in the subterm at
/// the front of a part.
fn free_of(part: &[u32], forbidden: Indices) -> bool {
    let mut room = ROOM;
    let mut levels = Levels::at_root(&mut room);
    for node in nodes(part) {
        if node.kind() == Kind::Variable {
            let inside = levels.abstractions();
            if node.name() >= inside && forbidden.contains(node.name() - inside) {
                return false;
            }
        }
        if levels.pass(node) != Step::More {
            break;
        }
    }
    true
}

/// Whether the old subterm, its free indices renamed by the pairs and the
/// others moved by the difference, is the new one.
fn equal(old: &[u32], new: &[u32], difference: u32, words: &[u32]) -> bool {
    let mut room = ROOM;
    let mut levels = Levels::at_root(&mut room);
    for (old, new) in nodes(old).zip(nodes(new)) {
        let inside = levels.abstractions();
        let same = if old.kind() != Kind::Variable || old.name() < inside {
            new == old
        } else {
            // A moved index can pass the limit; no variable has it then.
            new.kind() == Kind::Variable
                && new.name() == renamed(old.name(), inside, difference, words)
        };
        if !same {
            return false;
        }
        if levels.pass(old) != Step::More {
            break;
        }
    }
    true
}

/// What an index that is free in the entry becomes, seen from `inside`
/// abstractions further in. The first pair for it counts.
fn renamed(index: u32, inside: u32, difference: u32, words: &[u32]) -> u32 {
    match pairs(words).find(|&(first, _)| first == index - inside) {
        Some((_, second)) => second + inside,
        // In code that passed the sum is at least the bias.
        None => (index + difference).saturating_sub(DIFFERENCE_BIAS),
    }
}
