//! What a run keeps in the working table, and where.
//!
//! The first part has a word for each code word: an instruction's own word
//! holds the place of the instruction before it in its sequence, so that a
//! sequence can be read from its last instruction back; the fixed words of a
//! PUSHIMM hold the depth of what it pushes, those of a PUSHI also its size and
//! whether a keyed variable occurs; a key's two words hold the last instruction
//! of its body and the size of what that makes.
//! The second part has a word for each subject node: its depth and the
//! abstractions above it.

use crate::limits::CODE_WORDS;

/// The working table in its two parts.
pub fn parts(work: &mut [u32]) -> (&mut [u32], &mut [u32]) {
    work.split_at_mut(CODE_WORDS)
}

/// Offsets from the opcode of a PUSHIMM or PUSHI.
pub const PUSHED_DEPTH: usize = 1;
pub const PUSHED_SIZE: usize = 2;
pub const KEY_OCCURS: usize = 3;
/// Offsets from a key.
pub const BODY_LAST: usize = 0;
pub const BODY_SIZE: usize = 1;

const DEPTH_SHIFT: u32 = 8;

/// The place of a node: its depth above its abstractions, so that the deepest
/// place is the largest word.
#[inline]
pub fn place(depth: usize, abstractions: u32) -> u32 {
    (depth as u32) << DEPTH_SHIFT | abstractions
}

#[inline]
pub fn depth(place: u32) -> u32 {
    place >> DEPTH_SHIFT
}

#[inline]
pub fn abstractions(place: u32) -> u32 {
    place & ((1 << DEPTH_SHIFT) - 1)
}
