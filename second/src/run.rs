//! The run: code applied at the root of a subject.

use crate::build::Building;
use crate::check::passes;
use crate::code::EQI;
use crate::limits::{NODE_WORDS, RESULT_NODES, WORKING_WORDS};
use crate::matching::{accept_subject, Matching};
use crate::measure::Measuring;
use crate::refusals::{Answer, Refusal};
use crate::working;

/// Runs code on a subject: 0 and the words of the result at the front of the
/// result table, or a refusal in the order 16, 11, 2, 1, 3, 4, 12 to 15 and no
/// word of it changed. The working table comes back filled with zeros.
pub fn run(code: &[u32], subject: &[u32], work: &mut [u32], result: &mut [u32]) -> Answer {
    let outcome = apply(code, subject, work, result);
    work.fill(0);
    Answer::of(outcome)
}

fn apply(
    code: &[u32],
    subject: &[u32],
    work: &mut [u32],
    result: &mut [u32],
) -> Result<usize, Refusal> {
    if work.len() < WORKING_WORDS {
        return Err(Refusal::WorkingTableShort);
    }
    if !passes(code) {
        return Err(Refusal::CodeDoesNotPass);
    }
    let (links, places) = working::parts(work);
    let mut free_places = places.iter_mut();
    accept_subject(subject, |levels| {
        if let Some(place) = free_places.next() {
            *place = working::place(levels.depth(), levels.abstractions());
        }
    })?;
    let mut matching = Matching::new(subject);
    let build = match_part(code, 0, &mut matching).ok_or(Refusal::MatchFails)?;
    let most_nodes = RESULT_NODES.min(result.len() / NODE_WORDS);
    let (matching, above) = (&matching, 0);
    let measuring = Measuring { code, subject, matching, links, places, most_nodes, above };
    let (nodes, last) = measuring.result(build)?;
    Building::new(code, subject, matching, (links, places), result).result(nodes, last);
    Ok(NODE_WORDS * nodes)
}

/// Executes the match part from an instruction on; gives the place of the build
/// part, or none if an instruction fails.
pub fn match_part(code: &[u32], from: usize, matching: &mut Matching) -> Option<usize> {
    let mut at = from;
    while code[at] <= EQI {
        at = matching.exec(code, at)?;
    }
    Some(at)
}
