//! The programs plan_apply and rewrite as processes.

use std::fs::{self, File};
use std::io::Write;
use std::path::Path;
use std::process::{Command, Stdio};

use second::limits::FILE_BYTES;
use second::plan_apply;
use second::seed::*;

fn line_of(file: &[u8]) -> Vec<u8> {
    let mut program = Command::new(env!("CARGO_BIN_EXE_plan_apply"))
        .stdin(Stdio::piped())
        .stdout(Stdio::piped())
        .spawn()
        .expect("the program starts");
    // A program that has read enough may close its end; that is no failure.
    let _ = program.stdin.take().expect("a pipe").write_all(file);
    let output = program.wait_with_output().expect("the program ends");
    assert!(output.status.success());
    output.stdout
}

#[test]
fn prints_the_line_of_01() {
    let left = [65_537, 2, 65_538, 1, 196_608, 1, 131_073, 1, 0, 0, 131_074, 0];
    let right = [131_073, 1, 131_074, 0];
    let subject = [65_537, 2, 65_538, 1, 196_608, 1, 65_539, 2, 0, 0, 0, 0, 7, 0];
    assert_eq!(line_of(&file_of(&left, &right, &subject)), b"0 6 65539 2 7 0 7 0\n");
}

#[test]
fn a_longer_file_and_a_failed_read_are_bad_files() {
    assert_eq!(line_of(&vec![1; FILE_BYTES + 1]), b"17 0\n");
    assert_eq!(line_of(&vec![1; 3 * FILE_BYTES]), b"17 0\n");
    assert_eq!(line_of(&[]), b"17 0\n");
    // Reading a directory fails.
    let directory = File::open(env!("CARGO_MANIFEST_DIR")).expect("the crate's folder");
    let program = Command::new(env!("CARGO_BIN_EXE_plan_apply"));
    let output = { program }.stdin(directory).output().expect("the program runs");
    assert_eq!(output.stdout, b"17 0\n");
}

#[test]
fn is_the_library_call_on_seeded_files() {
    for seed in 0..60 {
        let mut rng = Rng::new(seed);
        let rule = good_rule(&mut rng);
        let subject = matching_subject(&mut rng, &rule);
        let mut file = file_of(&rule.left, &rule.right, &subject);
        if rng.percent(30) {
            file = damaged_file(&mut rng, &file);
        }
        assert_eq!(line_of(&file), plan_apply(&file));
    }
}

/// What stands beside the lists of examples/rewrite is what this program says of them.
#[test]
fn rewrites_the_examples() {
    let root = Path::new(env!("CARGO_MANIFEST_DIR")).join("..");
    let folder = Path::new("examples/rewrite");
    let lists = fs::read_dir(root.join(folder)).expect("the lists' folder");
    let mut tried = 0;
    for list in lists {
        let list = folder.join(list.expect("a list").file_name());
        let text = |name: &str| fs::read_to_string(root.join(&list).join(name)).unwrap_or_default();
        let rule = |number| list.join(format!("{number}.rule"));
        let rules = (1..).map(rule).take_while(|rule| root.join(rule).exists());
        let program = &mut Command::new(env!("CARGO_BIN_EXE_rewrite"));
        let run = program.current_dir(&root).arg(text("rewrites").trim()).args(rules);
        let output = run.output().expect("the program runs");
        let (line, error) = (text("line"), text("error"));
        assert_eq!(String::from_utf8_lossy(&output.stdout), line, "{list:?}");
        assert_eq!(String::from_utf8_lossy(&output.stderr), error, "{list:?}");
        assert_eq!(output.status.code(), Some(i32::from(line.is_empty())), "{list:?}");
        tried += 1;
    }
    assert_eq!(tried, 6);
}
