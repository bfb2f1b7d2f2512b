//! The program plan_apply prints the second implementation's lines.

use std::fs::File;
use std::io::Write;
use std::process::{Command, Output, Stdio};

use second::limits::FILE_BYTES;
use second::seed::*;

const BAD_FILE: &[u8] = b"17 0\n";

/// From the repository, as the README has it.
fn program() -> Command {
    let mut program = Command::new("bash");
    program.arg(concat!(env!("CARGO_MANIFEST_DIR"), "/../../program/plan_apply.sh"));
    program
}

fn line_of(file: &[u8]) -> Vec<u8> {
    let piped = program().stdin(Stdio::piped()).stdout(Stdio::piped()).spawn();
    let mut running = piped.expect("the program starts");
    // A program that has read enough may close its end; that is no failure.
    let _ = running.stdin.take().expect("a pipe").write_all(file);
    printed(running.wait_with_output().expect("the program ends"))
}

/// Whatever the line says, the exit status is 0.
fn printed(output: Output) -> Vec<u8> {
    assert!(output.status.success(), "{}", String::from_utf8_lossy(&output.stderr));
    output.stdout
}

/// One test, since the first call may build the program.
#[test]
fn plan_apply_prints_what_the_second_implementation_prints() {
    refuses_what_is_no_file();
    for seed in 0..50 {
        let mut rng = Rng::new(seed);
        let file = file(&mut rng);
        assert_eq!(line_of(&file), second::plan_apply(&file), "seed {seed}");
    }
}

/// Rules and subjects as they come, a rule that is refused, results at a limit and past it, and
/// damaged files.
fn file(rng: &mut Rng) -> Vec<u8> {
    let (mut rule, mut subject);
    if rng.percent(30) {
        let (kind, over) = (rng.below(RESULT_CASES), rng.percent(50));
        let case = result_at_limit(rng, kind, over);
        (rule, subject) = (case.rule, case.subject);
    } else {
        rule = good_rule(rng);
        subject = matching_subject(rng, &rule);
    }
    match rng.below(5) {
        0 => {
            let refusal = *rng.pick(&BREAKS);
            rule = break_rule(rng, &rule, refusal);
        }
        1 => subject = nearly(rng, &subject),
        _ => {}
    }
    let file = file_of(&rule.left, &rule.right, &subject);
    if rng.percent(15) {
        return damaged_file(rng, &file);
    }
    file
}

fn refuses_what_is_no_file() {
    assert_eq!(line_of(&[]), BAD_FILE);
    // The longest file is none only for its words.
    let mut longest = file_of(&[0; 1_024], &[0; 1_024], &[0; 8_192]);
    assert_eq!((longest.len(), line_of(&longest)), (FILE_BYTES, b"2 0\n".to_vec()));
    longest.push(0);
    assert_eq!(line_of(&longest), BAD_FILE);
    longest.resize(5 * FILE_BYTES, 1);
    assert_eq!(line_of(&longest), BAD_FILE);
    // Reading a directory fails.
    let directory = File::open(env!("CARGO_MANIFEST_DIR")).expect("this package's folder");
    let output = program().stdin(directory).output().expect("the program runs");
    assert_eq!(printed(output), BAD_FILE);
}
