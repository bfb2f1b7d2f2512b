//! What becomes of code that passes when some of it is changed.

use linked::check::Check;
use linked::code::CELL;
use second::limits::INDEX;
use second::seed::Rng;

use crate::accepted::name;

/// One word is another one: a near one, that of another place, a small one or any.
pub fn another_word(rng: &mut Rng, code: &[u32]) -> Vec<u32> {
    let mut changed = code.to_vec();
    let place = rng.below(code.len());
    let (word, elsewhere) = (code[place], *rng.pick(code));
    let (small, any) = (rng.below(15) as u32, rng.bits() as u32);
    let (more, less) = (word.wrapping_add(1), word.wrapping_sub(1));
    changed[place] = *rng.pick(&[more, less, elsewhere, small, small, any]);
    changed
}

/// One word is higher than any in code that passes may be, also where only its low bits are right.
pub fn high_word(rng: &mut Rng, code: &[u32]) -> Vec<u32> {
    let mut changed = code.to_vec();
    let place = rng.below(code.len());
    changed[place] = far_too_high(rng, code[place]);
    changed
}

/// A word over 65,535 with the low bits of this one, or one that is nearly 2^32.
pub fn far_too_high(rng: &mut Rng, word: u32) -> u32 {
    assert!(word <= INDEX);
    let high = word + (1 << rng.between(16, 31));
    *rng.pick(&[high, high, high, u32::MAX, u32::MAX - word])
}

/// A word more or less somewhere, or two words that have changed places.
pub fn moved_words(rng: &mut Rng, code: &[u32]) -> Vec<u32> {
    let mut changed = code.to_vec();
    let place = rng.below(code.len());
    match rng.below(4) {
        0 => changed.insert(place, rng.below(15) as u32),
        1 => changed.insert(place, code[place]),
        2 => drop(changed.remove(place)),
        _ => changed.swap(place, rng.below(code.len())),
    }
    changed
}

/// A stretch of words twice, or not at all, or in another place.
pub fn moved_stretch(rng: &mut Rng, code: &[u32]) -> Vec<u32> {
    let mut changed = code.to_vec();
    let from = rng.below(code.len());
    let words = rng.between(1, 8).min(code.len() - from);
    let stretch = &code[from..from + words];
    if rng.percent(60) {
        changed.drain(from..from + words);
    }
    if rng.percent(60) {
        let place = rng.below(changed.len() + 1);
        changed.splice(place..place, stretch.iter().copied());
    }
    changed
}

/// One word after the end: whatever it is, no whole instruction more can be right there.
pub fn word_after(rng: &mut Rng, code: &[u32]) -> Vec<u32> {
    let word = if rng.percent(80) { rng.below(15) as u32 } else { rng.bits() as u32 };
    [code, &[word]].concat()
}

/// A CELL after the end that takes the only term: the code passes as before.
pub fn cell_after(rng: &mut Rng, code: &[u32]) -> Vec<u32> {
    [code, &[CELL, name(rng), 1]].concat()
}

/// The first words alone; those that were cut off stand right behind.
pub fn cut(rng: &mut Rng, code: &[u32]) -> Check {
    let words = rng.below(code.len());
    Check::on_front(rng, code, words)
}

/// Each cut, the empty one too.
pub fn every_cut(rng: &mut Rng, code: &[u32]) -> Vec<Check> {
    (0..code.len()).map(|words| Check::on_front(rng, code, words)).collect()
}

/// The front of one code and the end of another.
pub fn crossed(rng: &mut Rng, front: &[u32], end: &[u32]) -> Vec<u32> {
    let (to, from) = (rng.below(front.len()), rng.below(end.len()));
    [&front[..to], &end[from..]].concat()
}
