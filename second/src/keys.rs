//! The keys of a PUSHI in code that passed: 004's `assoc acs`.

use crate::code::{body_end, Indices, OPERAND_WORDS, PUSHI};
use crate::limits::ARGUMENTS;

/// Each key with its place in the code; where one is repeated the first counts.
pub struct Keys {
    all: Indices,
    keys: [u8; ARGUMENTS],
    places: [u16; ARGUMENTS],
}

impl Keys {
    /// No key.
    pub fn none() -> Keys {
        Keys { all: Indices(0), keys: [0; ARGUMENTS], places: [0; ARGUMENTS] }
    }

    /// The keys of the PUSHI at `at`.
    #[inline]
    pub fn of(code: &[u32], at: usize) -> Keys {
        let mut found = Keys::none();
        let mut place = at + 1 + OPERAND_WORDS[PUSHI as usize];
        for number in 0..code[place - 1] as usize {
            found.all.insert(code[place]);
            found.keys[number] = code[place] as u8;
            found.places[number] = place as u16;
            place = body_end(code, place);
        }
        found
    }

    /// The number of the first key for this index.
    #[inline]
    pub fn find(&self, index: u32) -> Option<usize> {
        if !self.all.contains(index) {
            return None;
        }
        self.keys.iter().position(|&key| u32::from(key) == index)
    }

    /// Where a key stands in the code.
    #[inline]
    pub fn place(&self, number: usize) -> usize {
        usize::from(self.places[number])
    }
}
