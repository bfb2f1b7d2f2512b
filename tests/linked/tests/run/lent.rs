//! Working and result tables lent for a run.

use linked::numbers::{DONE, RESULT_INDEX_TOO_HIGH, RESULT_TOO_DEEP, RESULT_TOO_LARGE};
use linked::run::{Lent, Run, RESULT_WORDS};
use second::limits::WORKING_WORDS;
use second::seed::Rng;
use second::Answer;

use crate::cases::Case;

/// What a run with room for every result gives.
fn with_all_room(case: &Case) -> Answer {
    let (mut working, mut result) = (vec![0; WORKING_WORDS], vec![0; RESULT_WORDS]);
    second::run(&case.code, &case.subject, &mut working, &mut result)
}

/// How many words the result has; none if a run with room for every result is refused.
pub fn words_of(case: &Case) -> Option<usize> {
    let answer = with_all_room(case);
    (answer.number == DONE).then_some(answer.words as usize)
}

/// A result table with just enough room or more; all the room there can be, if the result is what
/// is refused; of any length, if there is none.
fn enough(rng: &mut Rng, case: &Case) -> Lent {
    let Answer { number, words } = with_all_room(case);
    let (result, reach) = match number {
        DONE => (words as usize + *rng.pick(&[0, 0, 0, 1, 2, 3, 40]), words as usize),
        RESULT_TOO_LARGE | RESULT_TOO_DEEP | RESULT_INDEX_TOO_HIGH => {
            (RESULT_WORDS + rng.below(3), RESULT_WORDS)
        }
        _ => (*rng.pick(&[0, 1, 2, 9, 64, 300]), 600),
    };
    Lent { working: working(rng), result, reach }
}

/// Words of a working table that is long enough.
fn working(rng: &mut Rng) -> usize {
    let more = *rng.pick(&[0, 0, 0, 0, 0, 0, 1, 2, 3, 60]);
    if rng.percent(1) {
        return 2 * WORKING_WORDS + more;
    }
    WORKING_WORDS + more
}

/// A call that lends enough.
pub fn with_room(rng: &mut Rng, case: &Case) -> Run {
    let lent = enough(rng, case);
    Run::new(rng, &case.code, &case.subject, lent)
}

/// Room for the longest result, whatever it is.
pub fn whole(rng: &mut Rng, case: &Case) -> Run {
    let lent = Lent::result(RESULT_WORDS, 2 * RESULT_WORDS);
    Run::new(rng, &case.code, &case.subject, lent)
}

/// Result tables of each length from none to more than enough; none of them if nothing is made.
pub fn every_length(rng: &mut Rng, case: &Case) -> Vec<Run> {
    const MOST: usize = 40;
    match words_of(case) {
        Some(words) if words <= MOST => (0..words + 4)
            .map(|length| Run::new(rng, &case.code, &case.subject, Lent::result(length, words)))
            .collect(),
        _ => Vec::new(),
    }
}

/// Result tables that are too short: by one word, by a node, by anything, empty.
pub fn result_short(rng: &mut Rng, case: &Case) -> Vec<Run> {
    let Some(words) = words_of(case) else { return Vec::new() };
    [words - 1, words - 2, rng.below(words), 0]
        .map(|length| Run::new(rng, &case.code, &case.subject, Lent::result(length, words)))
        .into()
}

/// A working table that is short: by a word, or of any length.
pub fn working_short(rng: &mut Rng, case: &Case) -> Run {
    let lengths = [0, 1, 2, WORKING_WORDS / 2, WORKING_WORDS - 2, WORKING_WORDS - 1];
    let working = if rng.percent(50) { *rng.pick(&lengths) } else { rng.below(WORKING_WORDS) };
    with_working(rng, case, working)
}

/// Short working tables of every length in steps of eight, the first one as the seed says: together
/// the seeds from 0 to 23 have each length.
pub fn every_working_short(rng: &mut Rng, make: fn(&mut Rng) -> Case) -> Vec<Run> {
    const STEP: usize = 8;
    let first = rng.below(STEP);
    let case = make(rng);
    let lengths = (first..WORKING_WORDS).step_by(STEP);
    lengths.map(|length| with_working(rng, &case, length)).collect()
}

/// A working table of this length; all else has room.
pub fn with_working(rng: &mut Rng, case: &Case, working: usize) -> Run {
    let lent = Lent { working, ..enough(rng, case) };
    Run::new(rng, &case.code, &case.subject, lent)
}
