//! Working and result tables lent for a list run.

use std::cell::RefCell;

use linked::list_run::{Lent, ListRun, RESULT_WORDS};
use linked::numbers::{DONE, RESULT_INDEX_TOO_HIGH, RESULT_TOO_DEEP, RESULT_TOO_LARGE};
use second::limits::{LIST_WORKING_WORDS, WORKING_WORDS};
use second::seed::Rng;
use second::ListAnswer;

use crate::cases::Case;

/// What a call with room for every plan gives.
pub fn with_all_room(case: &Case) -> ListAnswer {
    in_room(case, RESULT_WORDS)
}

thread_local! {
    /// A working and a result table for calls that nobody compares.
    static TABLES: RefCell<[Vec<u32>; 2]> =
        RefCell::new([vec![0; LIST_WORKING_WORDS], vec![0; RESULT_WORDS]]);
}

fn in_room(case: &Case, words: usize) -> ListAnswer {
    TABLES.with_borrow_mut(|[working, result]| {
        let result = &mut result[..words];
        second::list_run(&case.table(), &case.subject, case.rewrites, working, result)
    })
}

/// The fewest words of a result table that holds every plan of the sequence; none if all the room
/// there can be is too little.
pub fn enough(case: &Case) -> Option<usize> {
    if with_all_room(case).number != DONE {
        return None;
    }
    let (mut low, mut high) = (0, RESULT_WORDS);
    while low < high {
        let middle = (low + high) / 2;
        if in_room(case, middle).number == DONE {
            high = middle;
        } else {
            low = middle + 1;
        }
    }
    Some(low)
}

/// Words of a working table that is long enough.
fn working(rng: &mut Rng) -> usize {
    let more = *rng.pick(&[0, 0, 0, 0, 0, 0, 1, 2, 3, 60]);
    if rng.percent(1) {
        return 2 * LIST_WORKING_WORDS + more;
    }
    LIST_WORKING_WORDS + more
}

/// A call with much room, or all.
pub fn with_room(rng: &mut Rng, case: &Case) -> ListRun {
    let ListAnswer { number, words, .. } = with_all_room(case);
    let result = match number {
        // A plan between may be larger than the last one.
        DONE => *rng.pick(&[8 * words as usize + 400, RESULT_WORDS, RESULT_WORDS + 1]),
        RESULT_TOO_LARGE | RESULT_TOO_DEEP | RESULT_INDEX_TOO_HIGH => RESULT_WORDS + rng.below(3),
        _ => *rng.pick(&[0, 1, 2, 9, 64, 300]),
    };
    let lent = Lent { working: working(rng), result: result.min(RESULT_WORDS + 2), reach: 0 };
    call(rng, case, lent)
}

pub fn call(rng: &mut Rng, case: &Case, lent: Lent) -> ListRun {
    ListRun::new(rng, &case.table(), &case.subject, case.rewrites, lent)
}

/// Just room for the largest plan, one word more, one less and a node less.
pub fn just_room(rng: &mut Rng, case: &Case) -> Vec<ListRun> {
    let Some(words) = enough(case) else { return Vec::new() };
    [words, words + 1, words - 1, words - 2]
        .map(|result| call(rng, case, Lent::result(result, words)))
        .into()
}

/// Result tables of each length from none to more than enough.
pub fn every_length(rng: &mut Rng, case: &Case) -> Vec<ListRun> {
    const MOST: usize = 40;
    match enough(case) {
        Some(words) if words <= MOST => {
            (0..words + 3).map(|length| call(rng, case, Lent::result(length, words))).collect()
        }
        _ => Vec::new(),
    }
}

/// A working table that is short: by a word, as long as a run's, or of any length.
pub fn working_short(rng: &mut Rng, case: &Case) -> ListRun {
    let lengths = [0, 1, 2, WORKING_WORDS, 12_288, LIST_WORKING_WORDS - 2, LIST_WORKING_WORDS - 1];
    let any = rng.below(LIST_WORKING_WORDS);
    let working = if rng.percent(60) { *rng.pick(&lengths) } else { any };
    call(rng, case, Lent { working, result: 400, reach: RESULT_WORDS })
}
