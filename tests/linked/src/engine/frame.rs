//! A call as bytes, for host.c, which has the other side of this layout: the call's number and
//! argument, its answer, three words for each of four areas, and the areas' memory, each from a
//! whole word on. Words have their low byte first.

use crate::call::{Answer, Call};
use crate::guarded::{Area, Unit};

const WORD: usize = <u32 as Unit>::BYTES;
const AREAS: usize = 4;
const ANSWER_WORDS: usize = std::mem::size_of::<Answer>() / WORD;
const ANSWER_FROM: usize = 2 * WORD;
/// What stands there until the host has answered.
const UNANSWERED: Answer = [u32::MAX; ANSWER_WORDS];
const MEMORY_FROM: usize = (2 + ANSWER_WORDS + 3 * AREAS) * WORD;

/// Appends a call's frame.
pub fn put<C: Call>(call: &mut C, bytes: &mut Vec<u8>) {
    let head = [C::NUMBER, call.argument()].into_iter().chain(UNANSWERED);
    head.for_each(|word| put_word(word, bytes));
    let areas = call.areas();
    assert!(areas.len() <= AREAS);
    let mut shapes = [[0; 3]; AREAS];
    for (shape, area) in shapes.iter_mut().zip(&areas) {
        let [before, length] = area.shape();
        *shape = [words(&**area) as u32, before as u32, length as u32];
    }
    shapes.into_iter().flatten().for_each(|word| put_word(word, bytes));
    for area in areas {
        let end = bytes.len() + words(area) * WORD;
        area.put(bytes);
        bytes.resize(end, 0);
    }
}

/// Takes a call's memory from its frame and gives its answer; the bytes after the frame are left.
pub fn take(call: &mut impl Call, bytes: &mut &[u8]) -> Answer {
    let mut answer = Answer::default();
    for (word, bytes) in answer.iter_mut().zip(bytes[ANSWER_FROM..].chunks_exact(WORD)) {
        *word = u32::of_bytes(bytes);
    }
    *bytes = &bytes[MEMORY_FROM..];
    for area in call.areas() {
        let (memory, after) = bytes.split_at(words(area) * WORD);
        area.set(memory);
        *bytes = after;
    }
    answer
}

/// Appends a word.
pub fn put_word(word: u32, bytes: &mut Vec<u8>) {
    bytes.extend(word.to_le_bytes());
}

/// Words that an area's memory takes in a frame.
fn words(area: &dyn Area) -> usize {
    area.bytes().div_ceil(WORD)
}
