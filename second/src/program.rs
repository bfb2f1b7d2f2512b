//! The program plan_apply: a file to one line.

use crate::bytes::read;
use crate::limits::{
    CODE_WORDS, FILE_SIDE_WORDS, FILE_SUBJECT_WORDS, NODE_WORDS, RESULT_NODES, WORKING_WORDS,
};
use crate::refusals::{Answer, DONE};
use crate::run::run;
use crate::translate::compile;

/// The program's line for a file: number, word count, result words. The only
/// call that takes memory of its own.
pub fn plan_apply(file: &[u8]) -> Vec<u8> {
    let mut result = vec![0; NODE_WORDS * RESULT_NODES];
    let answer = apply(file, &mut result);
    let mut line = format!("{} {}", answer.number, answer.words);
    for word in &result[..answer.words as usize] {
        line.push(' ');
        line.push_str(&word.to_string());
    }
    line.push('\n');
    line.into_bytes()
}

/// Reads, compiles, runs; the first call that refuses ends the work.
fn apply(file: &[u8], result: &mut [u32]) -> Answer {
    let mut left = vec![0; FILE_SIDE_WORDS];
    let mut right = vec![0; FILE_SIDE_WORDS];
    let mut subject = vec![0; FILE_SUBJECT_WORDS];
    let words = read(file, &mut left, &mut right, &mut subject);
    if words.number != DONE {
        return Answer { number: words.number, words: 0 };
    }
    let left = &left[..words.left as usize];
    let right = &right[..words.right as usize];
    let subject = &subject[..words.subject as usize];
    let mut code = vec![0; CODE_WORDS];
    let compiled = compile(left, right, &mut code);
    if compiled.number != DONE {
        return compiled;
    }
    let mut work = vec![0; WORKING_WORDS];
    run(&code[..compiled.words as usize], subject, &mut work, result)
}
