//! The translation of an accepted rule (01; 004 section 6).

use crate::code::*;
use crate::limits::DIFFERENCE_BIAS;
use crate::refusals::{Answer, Refusal};
use crate::rules::{accept_rule, arguments, Entry, LeftWalk, SymbolTable};
use crate::tables::{node_at, nodes, Kind, Node, ROOM};

/// Compiles a rule: 0 and the words of its code at the front of the code table,
/// or a refusal, 1 to 10, and no word changed.
pub fn compile(left: &[u32], right: &[u32], code: &mut [u32]) -> Answer {
    Answer::of(translate(left, right, code))
}

fn translate(left: &[u32], right: &[u32], code: &mut [u32]) -> Result<usize, Refusal> {
    let table = accept_rule(left, right)?;
    let words = left_words(&table, left) + right_words(right);
    if words > code.len() {
        return Err(Refusal::CodeTableShort);
    }
    let mut writer = Writer { code, at: 0, left, right, table };
    writer.lhs();
    writer.rhs(0, 0);
    Ok(words)
}

/// Words of an instruction with so many further words behind the fixed ones.
const fn words(op: u32, further: usize) -> usize {
    1 + OPERAND_WORDS[op as usize] + further
}

/// The length of the left code.
fn left_words(table: &SymbolTable, left: &[u32]) -> usize {
    let mut met = 0;
    let mut sum = 0;
    let mut room = ROOM;
    for (node, place, _) in LeftWalk::new(left, &mut room) {
        let count = node.count as usize;
        sum += match node.kind() {
            Kind::Variable => words(EQVAR, 0) + words(NEXT, 0),
            Kind::Symbol => words(IS, 0),
            Kind::Abstraction => words(ISABST, 0),
            Kind::Metavariable => match first_occurrence(table, met, place) {
                Some(entry) => {
                    met += 1;
                    // The arguments are distinct and below b.
                    let checked = entry.bound as usize - count;
                    words(CHECK, checked) + words(SET, 0) + words(NEXT, 0)
                }
                None => words(EQI, PAIR_WORDS * count) + words(NEXT, 0),
            },
        };
    }
    sum
}

/// The entry whose first occurrence stands at `place`, after `met` others.
fn first_occurrence(table: &SymbolTable, met: usize, place: usize) -> Option<Entry> {
    if met == table.len {
        return None;
    }
    Some(table.entry(met)).filter(|entry| entry.place == place)
}

/// The length of the right code.
fn right_words(right: &[u32]) -> usize {
    let of_node = |node: Node| match node.kind() {
        Kind::Variable => words(PUSHVAR, 0),
        Kind::Symbol => words(CELL, 0),
        Kind::Abstraction => words(LAMBDA, 0) + words(ADBMAL, 0),
        Kind::Metavariable => words(PUSHI, KEY_WORDS * node.count as usize),
    };
    nodes(right).map(of_node).sum()
}

struct Writer<'a> {
    code: &'a mut [u32],
    at: usize,
    left: &'a [u32],
    right: &'a [u32],
    table: SymbolTable,
}

impl Writer<'_> {
    fn put(&mut self, words: &[u32]) {
        self.code[self.at..self.at + words.len()].copy_from_slice(words);
        self.at += words.len();
    }

    /// The left code, node by node.
    fn lhs(&mut self) {
        let mut met = 0;
        let mut room = ROOM;
        for (node, place, above) in LeftWalk::new(self.left, &mut room) {
            match node.kind() {
                Kind::Variable => self.put(&[EQVAR, node.name(), NEXT]),
                Kind::Symbol => self.put(&[IS, node.name(), node.count]),
                Kind::Abstraction => self.put(&[ISABST]),
                Kind::Metavariable => match first_occurrence(&self.table, met, place) {
                    Some(entry) => {
                        met += 1;
                        self.first(entry);
                    }
                    None => self.later(node, place, above, met),
                },
            }
        }
    }

    /// CHECK (the indices below b not among the arguments, rising), SET, NEXT.
    fn first(&mut self, entry: Entry) {
        let mut used = Indices(0);
        for argument in arguments(self.left, entry.place) {
            used.insert(argument.name());
        }
        self.put(&[CHECK, entry.bound - entry.metavariable.count]);
        for index in (0..entry.bound).filter(|&index| !used.contains(index)) {
            self.put(&[index]);
        }
        self.put(&[SET, NEXT]);
    }

    /// EQI (the entry among those already set, n - b, old arguments paired with
    /// new), NEXT.
    fn later(&mut self, node: Node, place: usize, above: u32, met: usize) {
        let Some(number) = self.table.lookup(node) else { return };
        let entry = self.table.entry(number);
        let still_to_come = (self.table.len - met) as u32;
        let location = self.table.location(number) - still_to_come;
        self.put(&[EQI, location, above + DIFFERENCE_BIAS - entry.bound, node.count]);
        let left = self.left;
        for (old, new) in arguments(left, entry.place).zip(arguments(left, place)) {
            self.put(&[old.name(), new.name()]);
        }
        self.put(&[NEXT]);
    }

    /// The right code of the subterm at node `place` under `above` abstractions.
    /// Gives the number of the node after it. As deep as the table.
    fn rhs(&mut self, place: usize, above: u32) -> usize {
        let node = node_at(self.right, place);
        let mut next = place + 1;
        match node.kind() {
            Kind::Variable => self.put(&[PUSHVAR, node.name()]),
            Kind::Symbol => {
                for _ in 0..node.count {
                    next = self.rhs(next, above);
                }
                self.put(&[CELL, node.name(), node.count]);
            }
            Kind::Abstraction => {
                self.put(&[LAMBDA]);
                next = self.rhs(next, above + 1);
                self.put(&[ADBMAL]);
            }
            Kind::Metavariable => next = self.push(node, next, above),
        }
        next
    }

    /// PUSHI (location, n - b, each first-occurrence argument with the code of
    /// the matching new argument).
    fn push(&mut self, node: Node, first: usize, above: u32) -> usize {
        let Some(number) = self.table.lookup(node) else { return first };
        let entry = self.table.entry(number);
        let location = self.table.location(number);
        self.put(&[PUSHI, location, above + DIFFERENCE_BIAS - entry.bound, node.count]);
        let mut next = first;
        let left = self.left;
        for argument in arguments(left, entry.place) {
            // The body's length is known once it is written.
            self.put(&[argument.name(), 0]);
            let body = self.at;
            next = self.rhs(next, above);
            self.code[body - 1] = (self.at - body) as u32;
        }
        next
    }
}
