//! Code that no compiler writes, with subjects that its match part accepts.

use super::rng::Rng;
use super::rules::name;
use super::subjects::random_term;
use super::term::Term;
use crate::code::*;
use crate::limits::*;
use crate::tables::Node;

/// Code and a subject that its match part was made with.
#[derive(Clone, Debug)]
pub struct ForeignCode {
    pub code: Vec<u32>,
    pub subject: Vec<u32>,
}

/// A current term that is still to be made.
#[derive(Clone, Copy)]
struct Hole {
    depth: u32,
    /// Indices that a CHECK forbids, seen from here.
    forbidden: u64,
}

struct Entry {
    bound: u32,
    guard: u64,
    /// The term, once it is whole.
    term: Option<Term>,
}

struct Making<'r> {
    rng: &'r mut Rng,
    code: Vec<u32>,
    subject: Vec<u32>,
    entries: Vec<Entry>,
    /// Where the last CHECK ends, and its list.
    last_check: Option<(usize, u64)>,
    room: usize,
}

/// Code from the check's own grammar. It passes; the subject is made along
/// with the match part, node by node, and mostly matches.
pub fn foreign_code(rng: &mut Rng) -> ForeignCode {
    let room = *rng.pick(&[3, 8, 20, 40]);
    let (code, subject, entries) = (Vec::new(), Vec::new(), Vec::new());
    let mut making = Making { rng, code, subject, entries, last_check: None, room };
    let mut holes = vec![Hole { depth: 0, forbidden: 0 }];
    while let Some(hole) = holes.pop() {
        making.hole(hole, &mut holes);
    }
    making.room = *making.rng.pick(&[3, 10, 30, 60]);
    making.build(Place { lambdas: 0, nested: 0, in_body: false });
    ForeignCode { code: making.code, subject: making.subject }
}

/// Where the build part stands.
#[derive(Clone, Copy)]
struct Place {
    lambdas: u32,
    nested: usize,
    in_body: bool,
}

impl Making<'_> {
    fn hole(&mut self, mut hole: Hole, holes: &mut Vec<Hole>) {
        self.room = self.room.saturating_sub(1);
        let mine = self.entries.len();
        for _ in 0..self.rng.below(4) {
            self.look(&mut hole);
        }
        match self.rng.below(10) {
            0..=3 if self.room > 0 && holes.len() < 200 => {
                let count = *self.rng.pick(&[0, 1, 1, 2, 2, 3, 8]);
                let name = name(self.rng);
                self.code.extend([IS, name, count]);
                self.node(Node::symbol(name, count));
                holes.extend(vec![hole; count as usize]);
            }
            4..=6 if self.room > 0 && (hole.depth as usize) < BINDERS => {
                self.code.push(ISABST);
                self.node(Node::abstraction());
                holes.push(Hole { depth: hole.depth + 1, forbidden: hole.forbidden << 1 });
            }
            choice => {
                let term = self.fill(choice, hole);
                self.code.push(NEXT);
                self.subject.extend(term.words());
                for entry in &mut self.entries[mine..] {
                    entry.term = Some(term.clone());
                }
            }
        }
    }

    fn node(&mut self, node: Node) {
        self.subject.extend([node.first, node.count]);
    }

    /// A CHECK or a SET, in any order and number.
    fn look(&mut self, hole: &mut Hole) {
        if self.rng.percent(50) {
            let guard = self.guard_of_last();
            if self.entries.len() < ENTRIES {
                self.code.push(SET);
                self.entries.push(Entry { bound: hole.depth, guard, term: None });
            }
            return;
        }
        let count = self.rng.below((hole.depth as usize + 2).min(6));
        let count = if hole.depth == 0 { 0 } else { count };
        self.code.extend([CHECK, count as u32]);
        let mut list = 0;
        for _ in 0..count {
            let index = self.rng.below(hole.depth as usize) as u32;
            self.code.push(index);
            list |= 1u64 << index;
        }
        self.last_check = Some((self.code.len(), list));
        hole.forbidden |= list;
    }

    /// The guard that a SET would get here.
    fn guard_of_last(&self) -> u64 {
        match self.last_check {
            Some((end, list)) if end == self.code.len() => list,
            _ => 0,
        }
    }

    /// The term of a hole, after an EQVAR, EQIMM or EQI that it satisfies.
    fn fill(&mut self, choice: usize, hole: Hole) -> Term {
        if choice == 7 && hole.depth > 0 {
            let index = self.rng.below(hole.depth as usize) as u32;
            self.code.extend([EQVAR, index]);
            return Term::Var(index);
        }
        if choice >= 8 && !self.entries.is_empty() {
            let newest = self.rng.below(self.entries.len());
            if let Some(term) = self.compare(newest, hole) {
                return term;
            }
        }
        let mut room = self.rng.between(1, 12);
        let term = random_term(self.rng, hole.depth, &mut room, 20);
        term.change_variables(0, &mut |index, inside| {
            let free = index.checked_sub(inside);
            match free {
                Some(free) if free < 64 && hole.forbidden >> free & 1 == 1 => Term::leaf(2),
                _ => Term::Var(index),
            }
        })
    }

    /// EQI or EQIMM with an entry counted from the newest; gives the term that
    /// it asks for if the entry's is whole and the code can pass.
    fn compare(&mut self, newest: usize, hole: Hole) -> Option<Term> {
        let entry = &self.entries[self.entries.len() - 1 - newest];
        let (bound, guard, term) = (entry.bound, entry.guard, entry.term.clone()?);
        if bound == hole.depth && self.rng.percent(40) {
            self.code.extend([EQIMM, newest as u32]);
            return Some(term);
        }
        let firsts = self.covering(bound, guard)?;
        if hole.depth == 0 && !firsts.is_empty() {
            return None;
        }
        let pairs: Vec<(u32, u32)> = firsts
            .into_iter()
            .map(|first| (first, self.rng.below(hole.depth as usize) as u32))
            .collect();
        let moved = hole.depth + DIFFERENCE_BIAS - bound;
        self.code.extend([EQI, newest as u32, moved, pairs.len() as u32]);
        self.code.extend(pairs.iter().flat_map(|&(first, second)| [first, second]));
        Some(term.change_variables(0, &mut |index, inside| {
            if index < inside {
                return Term::Var(index);
            }
            match pairs.iter().find(|pair| pair.0 == index - inside) {
                Some(pair) => Term::Var(pair.1 + inside),
                // A guarded index cannot be moved; then the CHECK failed already.
                None => Term::Var((index + moved).saturating_sub(DIFFERENCE_BIAS).min(INDEX)),
            }
        }))
    }

    /// At most eight indices below `bound` that cover those outside the guard,
    /// in any order, some of them repeated; none if eight are too few.
    fn covering(&mut self, bound: u32, guard: u64) -> Option<Vec<u32>> {
        let mut all: Vec<u32> = (0..bound).filter(|index| guard >> index & 1 == 0).collect();
        if all.len() > ARGUMENTS {
            return None;
        }
        while bound > 0 && all.len() < ARGUMENTS && self.rng.percent(25) {
            all.push(self.rng.below(bound as usize) as u32);
        }
        let order = self.rng.distinct(all.len(), all.len());
        Some(order.into_iter().map(|place| all[place as usize]).collect())
    }

    /// Code that makes one term.
    fn build(&mut self, place: Place) {
        self.room = self.room.saturating_sub(1);
        let nests = self.room > 0 && place.nested < NESTING;
        match self.rng.below(10) {
            0..=1 if self.room > 0 => {
                let count = (*self.rng.pick(&[0, 1, 1, 2, 2, 3, 8])).min(self.room);
                for _ in 0..count {
                    self.build(place);
                }
                let name = name(self.rng);
                self.code.extend([CELL, name, count as u32]);
            }
            2..=3 if nests && (place.lambdas as usize) < BINDERS => {
                self.code.push(LAMBDA);
                self.build(Place { lambdas: place.lambdas + 1, nested: place.nested + 1, ..place });
                self.code.push(ADBMAL);
            }
            4 if place.lambdas > 0 => {
                let index = self.rng.below(place.lambdas as usize) as u32;
                self.code.extend([PUSHVAR, index]);
            }
            5.. if self.push(place, nests) => {}
            _ => self.code.extend([CELL, 1, 0]),
        }
    }

    /// PUSHI or PUSHIMM of an entry, if one can stand here.
    fn push(&mut self, place: Place, nests: bool) -> bool {
        if self.entries.is_empty() {
            return false;
        }
        let newest = self.rng.below(self.entries.len());
        let entry = &self.entries[self.entries.len() - 1 - newest];
        let (bound, guard) = (entry.bound, entry.guard);
        if !place.in_body && bound == place.lambdas && self.rng.percent(40) {
            self.code.extend([PUSHIMM, newest as u32]);
            return true;
        }
        let Some(keys) = self.covering(bound, guard) else { return false };
        if !keys.is_empty() && !nests {
            return false;
        }
        let moved = place.lambdas + DIFFERENCE_BIAS - bound;
        self.code.extend([PUSHI, newest as u32, moved, keys.len() as u32]);
        for key in keys {
            self.code.extend([key, 0]);
            let body = self.code.len();
            self.build(Place { nested: place.nested + 1, in_body: true, ..place });
            self.code[body - 1] = (self.code.len() - body) as u32;
        }
        true
    }
}

/// Code with one word changed, cut short or lengthened.
pub fn damaged_code(rng: &mut Rng, code: &[u32]) -> Vec<u32> {
    let mut damaged = code.to_vec();
    let place = rng.below(code.len());
    match rng.below(10) {
        0 => damaged.truncate(place),
        1 => damaged.insert(place, rng.below(14) as u32),
        2 => damaged.push(rng.below(14) as u32),
        3 => {
            damaged.remove(place);
        }
        4 => damaged[place] = rng.bits() as u32,
        5 => damaged[place] = damaged[place].wrapping_add(1),
        6 => damaged[place] = damaged[place].wrapping_sub(1),
        7 => damaged.swap(place, rng.below(code.len())),
        _ => damaged[place] = rng.below(15) as u32,
    }
    damaged
}
