//! The vector tool: its lines read back as README.md describes them and judged
//! by the naive model.

mod model;

use std::collections::BTreeSet;
use std::process::Command;

use model::list;
use model::machine::{run as model_run, Machine, Stop};
use model::passing::passes;
use model::terms::{self, accept_rule, accept_subject};
use model::translation;

/// The numbers of a line, taken one after another.
struct Numbers<'a>(std::str::SplitAsciiWhitespace<'a>);

impl Numbers<'_> {
    fn next(&mut self) -> u32 {
        self.0.next().expect("a number").parse().expect("a decimal number")
    }

    fn table(&mut self) -> Vec<u32> {
        let count = self.next();
        (0..count).map(|_| self.next()).collect()
    }

    fn bytes(&mut self) -> Vec<u8> {
        self.table().into_iter().map(|byte| u8::try_from(byte).expect("a byte")).collect()
    }

    /// A lent table before the call.
    fn lent(&mut self) -> (usize, u32) {
        (self.next() as usize, self.next())
    }

    fn arrow(&mut self) {
        assert_eq!(self.0.next(), Some("->"));
    }

    fn end(&mut self) {
        assert_eq!(self.0.next(), None);
    }
}

type Outcome = Result<Vec<u32>, u32>;

fn compiled(left: &[u32], right: &[u32], table: usize) -> Outcome {
    let (l, r) = accept_rule(left, right)?;
    let words = translation::encode(&translation::compile(&l, &r));
    if words.len() > table {
        return Err(10);
    }
    Ok(words)
}

fn applied(code: &[u32], subject: &[u32], result: usize) -> Outcome {
    let tree = passes(code).ok_or(11u32)?;
    let t = accept_subject(subject)?;
    let made = model_run(&t, &tree).map_err(|stop| match stop {
        Stop::Failure => 12u32,
        Stop::TooLarge => 13,
    })?;
    if terms::size(&made) > 4_096.min(result / 2) {
        return Err(13);
    }
    if terms::depth(&made) > 64 {
        return Err(14);
    }
    if terms::highest_index(&made) > 65_535 {
        return Err(15);
    }
    Ok(terms::encode(&made))
}

/// Number, count, front and rest of a lent table after compile or run.
fn expect_written(numbers: &mut Numbers, expected: &Outcome, fill: u32, between: &[u32]) -> u32 {
    let (number, words) = match expected {
        Ok(words) => (0, words.clone()),
        Err(number) => (*number, vec![]),
    };
    assert_eq!((numbers.next(), numbers.next()), (number, words.len() as u32));
    for word in between {
        assert_eq!(numbers.next(), *word);
    }
    assert_eq!(numbers.table(), words);
    assert_eq!(numbers.next(), fill);
    number
}

fn judge_compile(numbers: &mut Numbers) -> u32 {
    let (left, right) = (numbers.table(), numbers.table());
    let (length, fill) = numbers.lent();
    numbers.arrow();
    expect_written(numbers, &compiled(&left, &right, length), fill, &[])
}

fn judge_check(numbers: &mut Numbers) -> u32 {
    let expected = if passes(&numbers.table()).is_some() { 0 } else { 11 };
    numbers.arrow();
    assert_eq!(numbers.next(), expected);
    expected
}

fn judge_run(numbers: &mut Numbers) -> u32 {
    let (code, subject) = (numbers.table(), numbers.table());
    let ((work, _), (result, fill)) = (numbers.lent(), numbers.lent());
    numbers.arrow();
    let expected = if work < 8_192 { Err(16) } else { applied(&code, &subject, result) };
    expect_written(numbers, &expected, fill, &[0, 0])
}

fn judge_list_run(numbers: &mut Numbers) -> u32 {
    let (rules, subject, rewrites) = (numbers.table(), numbers.table(), numbers.next());
    let ((work, _), (result, fill)) = (numbers.lent(), numbers.lent());
    numbers.arrow();
    let expected = list::list_run(&rules, &subject, rewrites, [work, result]);
    let (made, normal) = expected.as_ref().map_or((0, false), |(_, made, normal)| (*made, *normal));
    let words = expected.map(|(plan, ..)| terms::encode(&plan));
    expect_written(numbers, &words, fill, &[made, normal.into(), 0, 0])
}

fn judge_watch(numbers: &mut Numbers) -> u32 {
    let (code, subject, i) = (numbers.table(), numbers.table(), numbers.next());
    numbers.arrow();
    let expected = passes(&code).ok_or(11u32).and_then(|tree| {
        let t = accept_subject(&subject)?;
        let mut machine = Machine::start(&t);
        for c in tree.iter().take(i as usize) {
            match machine.exec(c) {
                Err(Stop::Failure) => return Err(12),
                // The model gives up on building; the count is all that is asked.
                Err(Stop::TooLarge) => return Ok(None),
                Ok(()) => {}
            }
        }
        let node = terms::size(&t) - machine.curr.iter().map(terms::size).sum::<usize>();
        let counts = [machine.curr.len(), machine.env.len(), machine.stack.len(), node];
        Ok(Some(counts.map(|count| count as u32)))
    });
    let given = [0; 5].map(|_: u32| numbers.next());
    match expected {
        Ok(Some(counts)) => assert_eq!((given[0], &given[1..]), (0, &counts[..])),
        Ok(None) => assert_eq!(given[0], 0),
        Err(number) => assert_eq!(given, [number, 0, 0, 0, 0]),
    }
    given[0]
}

fn read_file(file: &[u8], lent: [usize; 3]) -> Option<[Vec<u32>; 3]> {
    let mut rest = file.strip_prefix(&[1])?;
    let word = |rest: &mut &[u8]| -> Option<u32> {
        let (bytes, after) = rest.split_at_checked(4)?;
        *rest = after;
        Some(bytes.iter().fold(0, |word, byte| word * 256 + u32::from(*byte)))
    };
    let mut tables = [vec![], vec![], vec![]];
    for (number, table) in tables.iter_mut().enumerate() {
        let count = word(&mut rest)? as usize;
        if count > [1_024, 1_024, 8_192][number] || count > lent[number] {
            return None;
        }
        for _ in 0..count {
            table.push(word(&mut rest)?);
        }
    }
    rest.is_empty().then_some(tables)
}

fn judge_read(numbers: &mut Numbers) -> u32 {
    let file = numbers.bytes();
    let lent = [0; 3].map(|_: u32| numbers.lent());
    numbers.arrow();
    let tables = read_file(&file, lent.map(|table| table.0));
    let number = if tables.is_some() { 0 } else { 17 };
    let tables = tables.unwrap_or_default();
    assert_eq!(numbers.next(), number);
    for table in &tables {
        assert_eq!(numbers.next() as usize, table.len());
    }
    for (table, (_, fill)) in tables.iter().zip(lent) {
        assert_eq!((&numbers.table(), numbers.next()), (table, fill));
    }
    number
}

fn judge_plan_apply(numbers: &mut Numbers) -> u32 {
    let file = numbers.bytes();
    numbers.arrow();
    let expected = read_file(&file, [1_024, 1_024, 8_192]).ok_or(17u32).and_then(|tables| {
        let [left, right, subject] = tables;
        applied(&compiled(&left, &right, 4_096)?, &subject, 8_192)
    });
    let (number, words) = match expected {
        Ok(words) => (0, words),
        Err(number) => (number, vec![]),
    };
    let mut line = vec![number.to_string(), words.len().to_string()];
    line.extend(words.iter().map(u32::to_string));
    assert_eq!(numbers.next(), number);
    assert_eq!(numbers.bytes(), (line.join(" ") + "\n").as_bytes());
    number
}

fn lines(seed: u64, count: usize) -> String {
    let output = Command::new(env!("CARGO_BIN_EXE_vectors"))
        .args([seed.to_string(), count.to_string()])
        .output()
        .expect("the tool runs");
    assert!(output.status.success());
    String::from_utf8(output.stdout).expect("text")
}

#[test]
fn every_line_holds_and_every_refusal_occurs() {
    for seed in [1, 2, 77] {
        let text = lines(seed, 3_000);
        assert_eq!(text.lines().count(), 3_000);
        let mut met: BTreeSet<(&str, u32)> = BTreeSet::new();
        for line in text.lines() {
            let (call, rest) = line.split_once(' ').expect("a call's name");
            let mut numbers = Numbers(rest.split_ascii_whitespace());
            let number = match call {
                "compile" => judge_compile(&mut numbers),
                "check" => judge_check(&mut numbers),
                "run" => judge_run(&mut numbers),
                "watch" => judge_watch(&mut numbers),
                "list_run" => judge_list_run(&mut numbers),
                "read" => judge_read(&mut numbers),
                "plan_apply" => judge_plan_apply(&mut numbers),
                other => panic!("{other}"),
            };
            numbers.end();
            met.insert((call, number));
        }
        let all: [(&str, &[u32]); 7] = [
            ("compile", &[0, 1, 2, 3, 5, 6, 7, 8, 9, 10]),
            ("check", &[0, 11]),
            ("run", &[0, 1, 2, 3, 4, 11, 12, 13, 14, 15, 16]),
            ("watch", &[0, 1, 2, 3, 4, 11, 12]),
            ("list_run", &[0, 1, 2, 3, 4, 11, 13, 14, 15, 16, 37]),
            ("read", &[0, 17]),
            ("plan_apply", &[0, 1, 2, 3, 4, 5, 6, 7, 8, 9, 12, 13, 14, 15, 17]),
        ];
        for (call, expected) in all {
            assert!(expected.iter().all(|number| met.contains(&(call, *number))), "{call} {met:?}");
        }
    }
}

#[test]
fn the_same_seed_gives_the_same_lines() {
    assert_eq!(lines(5, 300), lines(5, 300));
    assert_ne!(lines(5, 300), lines(6, 300));
    // The first lines do not depend on how many are asked for.
    assert!(lines(5, 300).starts_with(&lines(5, 100)));
}
