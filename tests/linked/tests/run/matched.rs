//! Subjects for code that passes, made by its match part: node by node as its instructions ask.

use linked::code::*;
use second::limits::{DIFFERENCE_BIAS, INDEX};
use second::seed::{Rng, Term};

use crate::cases::term;

/// A current term that is still to be made.
struct Hole {
    depth: usize,
    /// Indices that a CHECK forbids, seen from here.
    forbidden: u64,
    /// What a comparison asks for.
    wanted: Option<Term>,
}

/// Where an entry's words begin, and how many holes there are once it is whole.
struct Entry {
    start: usize,
    holes: usize,
}

#[derive(Default)]
struct Making {
    subject: Vec<u32>,
    holes: Vec<Hole>,
    entries: Vec<Entry>,
}

/// A subject that the match part mostly accepts; where its instructions contradict one another it
/// fails.
pub fn subject_of(rng: &mut Rng, code: &[u32]) -> Vec<u32> {
    let mut making = Making::default();
    making.holes.push(Hole { depth: 0, forbidden: 0, wanted: None });
    let mut at = 0;
    while code[at] <= EQI {
        let next = at + words_of_match(&code[at..]);
        making.follow(rng, &code[at..next]);
        at = next;
    }
    making.subject
}

impl Making {
    fn follow(&mut self, rng: &mut Rng, instruction: &[u32]) {
        match *instruction {
            [IS, name, count] => {
                let hole = self.holes.pop().expect("a current term");
                self.subject.extend([1 << 16 | name, count]);
                for _ in 0..count {
                    self.holes.push(Hole { wanted: None, ..hole });
                }
            }
            [ISABST] => {
                let Hole { depth, forbidden, .. } = self.holes.pop().expect("a current term");
                self.subject.extend([3 << 16, 1]);
                let forbidden = forbidden << 1;
                self.holes.push(Hole { depth: depth + 1, forbidden, wanted: None });
            }
            [NEXT] => self.fill(rng),
            [SET] => {
                let (start, holes) = (self.subject.len(), self.holes.len() - 1);
                self.entries.push(Entry { start, holes });
            }
            [CHECK, _, ref list @ ..] => {
                self.top().forbidden |= list.iter().fold(0, |all, index| all | 1 << index);
            }
            [EQVAR, index] => self.top().wanted = Some(Term::Var(index)),
            [EQIMM, entry] => self.top().wanted = self.whole(entry),
            [EQI, entry, difference, _, ref pairs @ ..] => {
                let old = self.whole(entry);
                self.top().wanted = old.map(|old| renamed(&old, difference, pairs));
            }
            _ => unreachable!("a match instruction"),
        }
    }

    fn top(&mut self) -> &mut Hole {
        self.holes.last_mut().expect("a current term")
    }

    /// NEXT: the current term is what was asked for, or anything that no CHECK forbids.
    fn fill(&mut self, rng: &mut Rng) {
        let Hole { depth, forbidden, wanted } = self.holes.pop().expect("a current term");
        let made = wanted.unwrap_or_else(|| {
            let most = *rng.pick(&[1, 3, 8, 20]);
            allowed(&term(rng, depth, most), forbidden)
        });
        self.subject.extend(made.words());
    }

    /// An entry's term, counted from the newest, if it is whole.
    fn whole(&self, entry: u32) -> Option<Term> {
        let entry = &self.entries[self.entries.len() - 1 - entry as usize];
        let whole = self.holes.len() <= entry.holes;
        whole.then(|| Term::of_words(&self.subject[entry.start..]))
    }
}

/// The term with a symbol for each forbidden variable.
fn allowed(term: &Term, forbidden: u64) -> Term {
    term.change_variables(0, &mut |index, inside| match index.checked_sub(inside) {
        Some(free) if free < 64 && forbidden >> free & 1 == 1 => Term::leaf(2),
        _ => Term::Var(index),
    })
}

/// What an EQI wants.
fn renamed(old: &Term, difference: u32, pairs: &[u32]) -> Term {
    old.change_variables(0, &mut |index, inside| {
        let Some(free) = index.checked_sub(inside) else { return Term::Var(index) };
        match pairs.chunks(2).find(|pair| pair[0] == free) {
            Some(pair) => Term::Var(pair[1] + inside),
            None => Term::Var((index + difference).saturating_sub(DIFFERENCE_BIAS).min(INDEX)),
        }
    })
}
