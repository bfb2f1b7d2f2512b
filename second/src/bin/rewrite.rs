//! `rewrite REWRITES FILE...`: the line that examples/rewrite.c prints, or what
//! it says of a refused file. It made what stands beside the lists there.

use std::process::ExitCode;

use second::limits::{
    CODE_WORDS, FILE_SIDE_WORDS, FILE_SUBJECT_WORDS, LIST_WORKING_WORDS, NODE_WORDS, RESULT_NODES,
};
use second::{compile, list_run, read};

fn main() -> ExitCode {
    let mut arguments = std::env::args().skip(1);
    let rewrites = arguments.next().and_then(|number| number.parse().ok());
    let files: Vec<String> = arguments.collect();
    let (Some(rewrites), false) = (rewrites, files.is_empty()) else {
        eprintln!("usage: rewrite NUMBER-OF-REWRITES RULE-FILE...");
        return ExitCode::from(2);
    };
    let mut rules = Vec::new();
    let mut plan = None;
    for file in &files {
        match rule_of(file) {
            Ok((code, subject)) => {
                rules.push(code.len() as u32);
                rules.extend(code);
                plan = plan.or(Some(subject));
            }
            Err(number) => {
                eprintln!("rewrite: {file}: {number}");
                return ExitCode::FAILURE;
            }
        }
    }
    println!("{}", line_of(&rules, &plan.unwrap_or_default(), rewrites));
    ExitCode::SUCCESS
}

/// The code of a file's rule, and its subject; or a number.
fn rule_of(file: &str) -> Result<(Vec<u32>, Vec<u32>), u32> {
    let bytes = std::fs::read(file).unwrap_or_default();
    let (mut left, mut right) = (vec![0; FILE_SIDE_WORDS], vec![0; FILE_SIDE_WORDS]);
    let mut subject = vec![0; FILE_SUBJECT_WORDS];
    let words = read(&bytes, &mut left, &mut right, &mut subject);
    if words.number != 0 {
        return Err(words.number);
    }
    let (left, right) = (&left[..words.left as usize], &right[..words.right as usize]);
    let mut code = vec![0; CODE_WORDS];
    let compiled = compile(left, right, &mut code);
    if compiled.number != 0 {
        return Err(compiled.number);
    }
    code.truncate(compiled.words as usize);
    subject.truncate(words.subject as usize);
    Ok((code, subject))
}

fn line_of(rules: &[u32], plan: &[u32], rewrites: u32) -> String {
    let (mut work, mut result) = (vec![0; LIST_WORKING_WORDS], vec![0; NODE_WORDS * RESULT_NODES]);
    let answer = list_run(rules, plan, rewrites, &mut work, &mut result);
    let mut numbers = vec![answer.number, answer.words, answer.rewrites, answer.normal];
    numbers.extend(&result[..answer.words as usize]);
    numbers.iter().map(u32::to_string).collect::<Vec<_>>().join(" ")
}
