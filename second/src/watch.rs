//! The watch call: the machine's counts after each outermost instruction.

use crate::check::passes;
use crate::code::{next_instruction, CELL, EQI, PUSHI, PUSHIMM, PUSHVAR};
use crate::matching::{accept_subject, Matching};
use crate::refusals::{Refusal, DONE};

/// What watch gives back; on refusal all but the number is 0.
#[derive(Clone, Copy, Debug, PartialEq, Eq)]
pub struct WatchAnswer {
    pub number: u32,
    pub current: u32,
    pub entries: u32,
    pub finished: u32,
    pub node: u32,
}

/// Executes the first `i` outermost instructions, all if there are fewer.
/// Refuses 11, 2, 1, 3, 4, 12. Nothing is built.
pub fn watch(code: &[u32], subject: &[u32], i: u32) -> WatchAnswer {
    match follow(code, subject, i) {
        Ok(answer) => answer,
        Err(refusal) => {
            WatchAnswer { number: refusal.number(), current: 0, entries: 0, finished: 0, node: 0 }
        }
    }
}

fn follow(code: &[u32], subject: &[u32], i: u32) -> Result<WatchAnswer, Refusal> {
    if !passes(code) {
        return Err(Refusal::CodeDoesNotPass);
    }
    accept_subject(subject, |_| {})?;
    let mut matching = Matching::new(subject);
    let mut finished = 0;
    let mut at = 0;
    let mut executed = 0;
    while executed < i && at < code.len() {
        if code[at] <= EQI {
            at = matching.exec(code, at).ok_or(Refusal::MatchFails)?;
        } else {
            finished = finished_after(code, at, finished);
            at = next_instruction(code, at);
        }
        executed += 1;
    }
    Ok(WatchAnswer {
        number: DONE,
        current: matching.current as u32,
        entries: matching.made as u32,
        finished,
        node: matching.top as u32,
    })
}

/// The finished terms after a build instruction. LAMBDA makes none, ADBMAL
/// takes one and makes one.
fn finished_after(code: &[u32], at: usize, finished: u32) -> u32 {
    match code[at] {
        CELL => finished - code[at + 2] + 1,
        PUSHVAR | PUSHIMM | PUSHI => finished + 1,
        _ => finished,
    }
}
