//! Code words: the fourteen opcodes in order and the instruction reader.

pub const IS: u32 = 0;
pub const ISABST: u32 = 1;
pub const NEXT: u32 = 2;
pub const CHECK: u32 = 3;
pub const SET: u32 = 4;
pub const EQVAR: u32 = 5;
pub const EQIMM: u32 = 6;
pub const EQI: u32 = 7;
pub const CELL: u32 = 8;
pub const LAMBDA: u32 = 9;
pub const ADBMAL: u32 = 10;
pub const PUSHVAR: u32 = 11;
pub const PUSHIMM: u32 = 12;
pub const PUSHI: u32 = 13;

/// How many opcodes there are.
pub const OPCODES: usize = 14;
/// The number of fixed words after each opcode.
pub const OPERAND_WORDS: [usize; OPCODES] = [2, 0, 0, 1, 0, 1, 1, 3, 2, 0, 0, 1, 1, 3];
/// Words of an EQI's pair.
pub const PAIR_WORDS: usize = 2;
/// Words before a body: its key and its length.
pub const KEY_WORDS: usize = 2;

/// An opcode with its fixed words, as the instruction reader finds it.
#[derive(Clone, Copy)]
pub struct Instruction<'a> {
    pub op: u32,
    /// The fixed words after the opcode.
    pub operands: &'a [u32],
    /// Where the words after the fixed ones begin.
    pub behind: usize,
}

/// Reads the opcode and the fixed words at `at`, if the words up to `end` hold them.
#[inline]
pub fn instruction(code: &[u32], at: usize, end: usize) -> Option<Instruction<'_>> {
    let op = *code.get(at)?;
    let words = *OPERAND_WORDS.get(op as usize)?;
    let behind = at + 1 + words;
    if behind > end {
        return None;
    }
    Some(Instruction { op, operands: code.get(at + 1..behind)?, behind })
}

/// The words behind the fixed ones of a CHECK or EQI: `items` of so many words.
#[inline]
pub fn listed(
    code: &[u32],
    behind: usize,
    end: usize,
    items: usize,
    words: usize,
) -> Option<&[u32]> {
    let last = behind + items * words;
    if last > end {
        return None;
    }
    code.get(behind..last)
}

/// Where the instruction after the one at `at` begins, in code that passed.
#[inline]
pub fn next_instruction(code: &[u32], at: usize) -> usize {
    let op = code[at];
    let behind = at + 1 + OPERAND_WORDS[op as usize];
    match op {
        CHECK => behind + code[behind - 1] as usize,
        EQI => behind + PAIR_WORDS * code[behind - 1] as usize,
        PUSHI => (0..code[behind - 1]).fold(behind, |key, _| body_end(code, key)),
        _ => behind,
    }
}

/// Where the body of the key at `key` ends, in code that passed.
#[inline]
pub fn body_end(code: &[u32], key: usize) -> usize {
    key + KEY_WORDS + code[key + 1] as usize
}

/// A set of indices below 64, for guards, keys and first indices.
#[derive(Clone, Copy, Debug, Default, PartialEq, Eq)]
pub struct Indices(pub u64);

impl Indices {
    /// All indices below `bound`, which is at most 63.
    #[inline]
    pub fn below(bound: u32) -> Indices {
        Indices((1 << bound) - 1)
    }

    #[inline]
    pub fn insert(&mut self, index: u32) {
        self.0 |= 1 << index;
    }

    #[inline]
    pub fn contains(self, index: u32) -> bool {
        index < u64::BITS && self.0 >> index & 1 == 1
    }

    /// Whether these indices and the guard's together are all those below `bound`.
    #[inline]
    pub fn cover(self, guard: Indices, bound: u32) -> bool {
        let all = Indices::below(bound).0;
        (self.0 | guard.0) & all == all
    }
}

/// The pairs of an EQI, or any list of two words each.
#[inline]
pub fn pairs(words: &[u32]) -> impl Iterator<Item = (u32, u32)> + '_ {
    words.chunks_exact(PAIR_WORDS).map(|pair| (pair[0], pair[1]))
}
