//! Document 01's code words, and instructions of them, for code that no compiler writes.

use second::limits::DIFFERENCE_BIAS;

pub const IS: u32 = 0;
pub const ISABST: u32 = 1;
pub const NEXT: u32 = 2;
pub const CHECK: u32 = 3;
pub const SET: u32 = 4;
pub const EQVAR: u32 = 5;
pub const EQIMM: u32 = 6;
pub const EQI: u32 = 7;
pub const CELL: u32 = 8;
pub const LAMBDA: u32 = 9;
pub const ADBMAL: u32 = 10;
pub const PUSHVAR: u32 = 11;
pub const PUSHIMM: u32 = 12;
pub const PUSHI: u32 = 13;

/// CHECK with this list.
pub fn check(list: &[u32]) -> Vec<u32> {
    [&[CHECK, list.len() as u32], list].concat()
}

/// The word for d, under so many abstractions or LAMBDAs, of an entry with this b.
pub fn difference(here: usize, bound: usize) -> u32 {
    here as u32 + DIFFERENCE_BIAS - bound as u32
}

pub fn eqi(entry: u32, difference: u32, pairs: &[[u32; 2]]) -> Vec<u32> {
    let words = [EQI, entry, difference, pairs.len() as u32];
    [&words[..], pairs.as_flattened()].concat()
}

/// PUSHI with these keys and bodies.
pub fn pushi(entry: u32, difference: u32, bodies: &[(u32, Vec<u32>)]) -> Vec<u32> {
    let mut code = vec![PUSHI, entry, difference, bodies.len() as u32];
    for (key, body) in bodies {
        code.extend([*key, body.len() as u32]);
        code.extend(body);
    }
    code
}

/// What build instructions can stand in.
#[derive(Clone, Copy, PartialEq, Eq)]
pub enum Level {
    Block,
    /// Of the newest entry, which has b = 1.
    Body,
}

/// Instructions inside these levels, the outermost first.
pub fn nested(levels: &[Level], inside: &[u32]) -> Vec<u32> {
    let mut lambdas = levels.iter().filter(|level| **level == Level::Block).count();
    let mut code = inside.to_vec();
    for level in levels.iter().rev() {
        code = match level {
            Level::Block => {
                lambdas -= 1;
                [&[LAMBDA], &code[..], &[ADBMAL]].concat()
            }
            Level::Body => pushi(0, difference(lambdas, 1), &[(0, code)]),
        };
    }
    code
}

/// Instructions inside so many blocks.
pub fn in_blocks(times: usize, inside: &[u32]) -> Vec<u32> {
    nested(&vec![Level::Block; times], inside)
}

/// The words of the match instruction that this code begins with.
pub fn words_of_match(code: &[u32]) -> usize {
    match code[0] {
        IS => 3,
        CHECK => 2 + code[1] as usize,
        EQVAR | EQIMM => 2,
        EQI => 4 + 2 * code[3] as usize,
        _ => 1,
    }
}

/// How many outermost instructions code that passes has.
pub fn instructions(code: &[u32]) -> usize {
    let (mut at, mut count) = (0, 0);
    while at < code.len() {
        at += match code[at] {
            CELL => 3,
            PUSHVAR | PUSHIMM => 2,
            LAMBDA | ADBMAL => 1,
            PUSHI => words_of_pushi(&code[at..]),
            _ => words_of_match(&code[at..]),
        };
        count += 1;
    }
    count
}

fn words_of_pushi(code: &[u32]) -> usize {
    // Each body has its key and its count of words before it.
    (0..code[3]).fold(4, |words, _| words + 2 + code[words + 1] as usize)
}
