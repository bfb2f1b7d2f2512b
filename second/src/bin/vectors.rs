//! `vectors SEED COUNT`: that many test vectors on standard output, one a line,
//! and a tally of the numbers given on standard error. README.md says how a
//! line is written.

use std::collections::BTreeMap;
use std::fmt::Write as _;
use std::io::{self, BufWriter, Write};

use second::limits::{
    CODE_WORDS, FILE_SIDE_WORDS, FILE_SUBJECT_WORDS, LIST_WORKING_WORDS, NODE_WORDS, RESULT_NODES,
    REWRITES, SUBJECT_NODES, WORKING_WORDS,
};
use second::seed::*;
use second::{check, compile, list_run, plan_apply, read, run, watch};

fn main() -> io::Result<()> {
    let mut numbers = std::env::args().skip(1).map(|argument| argument.parse::<u64>());
    let (Some(Ok(seed)), Some(Ok(count)), None) = (numbers.next(), numbers.next(), numbers.next())
    else {
        eprintln!("usage: vectors SEED COUNT");
        std::process::exit(2);
    };
    let mut out = BufWriter::new(io::stdout().lock());
    let mut tally: BTreeMap<(&str, u32), u64> = BTreeMap::new();
    for line in 0..count {
        let mut vector = Vector::new(seed, line);
        vector.make();
        *tally.entry((vector.call, vector.number)).or_default() += 1;
        writeln!(out, "{}", vector.text)?;
    }
    out.flush()?;
    for ((call, number), times) in tally {
        eprintln!("{call} {number}: {times}");
    }
    Ok(())
}

/// How many kinds of vectors come in turn.
const KINDS: u64 = 27;
/// Words of the largest result.
const RESULT_WORDS: usize = NODE_WORDS * RESULT_NODES;
/// What a lent table holds before the call, unless it is told otherwise.
const FILLS: [u32; 4] = [0, 7, 65_537, u32::MAX];

/// A lent table and the word that filled it.
struct Lent {
    words: Vec<u32>,
    fill: u32,
}

/// One line in the making.
struct Vector {
    rng: Rng,
    kind: u64,
    /// How many vectors of this kind came before; edges are taken in turn.
    turn: usize,
    call: &'static str,
    number: u32,
    text: String,
}

impl Vector {
    fn new(seed: u64, line: u64) -> Vector {
        let mut rng = Rng::new(seed);
        let rng = Rng::new(rng.bits() ^ line.wrapping_mul(0xD6E8_FEB8_6659_FD93));
        let (kind, turn) = (line % KINDS, (line / KINDS) as usize);
        Vector { rng, kind, turn, call: "", number: 0, text: String::new() }
    }

    fn make(&mut self) {
        match self.kind {
            0..=4 => self.make_compile(),
            5..=8 => self.make_check(),
            9..=12 => self.make_run(),
            13 => self.run_edge(),
            14 => self.run_result_limit(),
            15 => self.run_refused(),
            16 => self.run_damaged(),
            17..=19 => self.make_watch(),
            20..=21 => self.make_read(),
            22..=23 => self.make_plan_apply(),
            24 => self.make_list_run(),
            25 => self.list_run_limit(),
            _ => self.list_run_refused(),
        }
    }

    fn over(&self, kinds: usize) -> (usize, bool) {
        (self.turn % kinds, self.turn / kinds % 2 == 1)
    }

    // The cases.

    fn make_compile(&mut self) {
        let mut rule = good_rule(&mut self.rng);
        let words = code_of(&rule).len();
        let mut table = *self.rng.pick(&[words, words + 1, CODE_WORDS]);
        match self.kind {
            0 => {}
            1 => table = *self.rng.pick(&[words - 1, words - 1, 0]),
            2 => rule = self.broken(&rule, self.turn),
            3 => {
                rule = self.broken(&rule, self.turn);
                rule = self.broken(&rule, self.turn / BREAKS.len());
                table = *self.rng.pick(&[0, CODE_WORDS]);
            }
            _ => {
                let (kind, over) = self.over(EDGE_RULES);
                rule = edge_rule(kind, over);
                table = CODE_WORDS;
            }
        }
        self.compile(&rule, table);
    }

    fn broken(&mut self, rule: &Rule, turn: usize) -> Rule {
        break_rule(&mut self.rng, rule, BREAKS[turn % BREAKS.len()])
    }

    fn make_check(&mut self) {
        let code = match self.kind {
            5 => code_of(&good_rule(&mut self.rng)),
            6 => foreign_code(&mut self.rng).code,
            7 => self.damaged(),
            _ => {
                let (kind, over) = self.over(EDGES);
                edge_code(kind, over).code
            }
        };
        self.check(&code);
    }

    fn damaged(&mut self) -> Vec<u32> {
        let code = match self.rng.percent(50) {
            true => foreign_code(&mut self.rng).code,
            false => code_of(&good_rule(&mut self.rng)),
        };
        damaged_code(&mut self.rng, &code)
    }

    /// Code with a subject that matches, or nearly.
    fn pair(&mut self, foreign: bool, near: bool) -> (Vec<u32>, Vec<u32>) {
        let (code, mut subject) = if foreign {
            let made = foreign_code(&mut self.rng);
            (made.code, made.subject)
        } else {
            let rule = good_rule(&mut self.rng);
            (code_of(&rule), matching_subject(&mut self.rng, &rule))
        };
        if near {
            subject = nearly(&mut self.rng, &subject);
        }
        (code, subject)
    }

    fn make_run(&mut self) {
        let (code, subject) = self.pair(self.kind >= 11, self.kind.is_multiple_of(2));
        let exact = result_words(&code, &subject);
        let half = exact.saturating_sub(1 + self.rng.below(2));
        let result = *self.rng.pick(&[RESULT_WORDS, RESULT_WORDS + 1, exact, exact + 1, half]);
        let work = *self.rng.pick(&[WORKING_WORDS, WORKING_WORDS + 1, 9_000]);
        self.run(&code, &subject, work, result);
    }

    fn run_edge(&mut self) {
        let (kind, over) = self.over(EDGES);
        let edge = edge_code(kind, over);
        self.run(&edge.code, &edge.subject, WORKING_WORDS, RESULT_WORDS);
    }

    fn run_result_limit(&mut self) {
        let (kind, over) = self.over(RESULT_CASES);
        let case = result_at_limit(&mut self.rng, kind, over);
        let code = code_of(&case.rule);
        self.run(&code, &case.subject, WORKING_WORDS, case.result_words);
    }

    /// Each refusal of a run before the match, alone and with a later one.
    fn run_refused(&mut self) {
        let (mut code, _) = self.pair(true, false);
        let mut work = WORKING_WORDS;
        let subject = self.bad_subject(self.turn);
        if self.turn % 10 >= 8 {
            work = *self.rng.pick(&[0, 1, WORKING_WORDS - 1]);
        }
        if self.turn % 10 == 9 {
            code.pop();
        }
        self.run(&code, &subject, work, 100);
    }

    /// A subject refused with 2, 1, 3 or 4, some with two of them due.
    fn bad_subject(&mut self, turn: usize) -> Vec<u32> {
        let deep = Term::chain(1, 64, Term::leaf(0));
        let hole = Term::Meta(1, vec![]);
        match turn % 8 {
            0 => vec![0; NODE_WORDS * SUBJECT_NODES + 1 + self.rng.below(2)],
            1 => Vec::new(),
            2 => deep.words(),
            3 => Term::Sym(1, vec![Term::leaf(1), hole]).words(),
            4 => Term::Sym(1, vec![hole, deep]).words(),
            5 => [deep.words(), hole.words()].concat(),
            6 => vec![65_536, 1, self.rng.bits() as u32 | 1 << 31, 0],
            _ => vec![131_072; 1 + 2 * self.rng.below(5)],
        }
    }

    fn run_damaged(&mut self) {
        let (_, subject) = self.pair(true, false);
        let code = self.damaged();
        self.run(&code, &subject, WORKING_WORDS, RESULT_WORDS);
    }

    fn make_watch(&mut self) {
        let near = self.rng.percent(30);
        let (mut code, mut subject) = self.pair(self.kind == 18, near);
        if self.kind == 19 {
            subject = self.bad_subject(self.turn);
            if self.turn % 10 == 9 {
                code = self.damaged();
            }
        }
        let bound = *self.rng.pick(&[3, 8, 20, 60]);
        let any = self.rng.below(bound) as u32;
        let i = *self.rng.pick(&[any, any, any, any, CODE_WORDS as u32, u32::MAX]);
        self.watch(&code, &subject, i);
    }

    fn make_read(&mut self) {
        let rule = good_rule(&mut self.rng);
        let subject = random_subject(&mut self.rng);
        let sizes = [rule.left.len(), rule.right.len(), subject.len()];
        let file = file_of(&rule.left, &rule.right, &subject);
        let whole = [FILE_SIDE_WORDS, FILE_SIDE_WORDS, FILE_SUBJECT_WORDS];
        if self.kind == 20 {
            let damaged = self.rng.percent(60);
            let file = if damaged { damaged_file(&mut self.rng, &file) } else { file };
            return self.read(&file, whole);
        }
        if self.turn % 12 == 11 {
            let (table, over) = (self.turn / 12 % 3, self.turn / 36 % 2 == 1);
            let file = edge_file(&mut self.rng, table, over);
            return self.read(&file, whole.map(|words| words + 8));
        }
        // Tables that are just long enough, or one of them one word too short.
        let mut lent = sizes;
        if self.turn % 2 == 1 {
            lent[self.turn / 2 % 3] -= 1;
        }
        self.read(&file, lent);
    }

    fn make_plan_apply(&mut self) {
        let mut rule = good_rule(&mut self.rng);
        let mut subject = matching_subject(&mut self.rng, &rule);
        if self.kind == 23 {
            match self.turn % 4 {
                0 => rule = self.broken(&rule, self.turn / 4),
                1 => subject = nearly(&mut self.rng, &subject),
                2 if self.turn % 8 == 2 => subject = self.bad_subject(self.turn / 8),
                _ => {
                    let (kind, over) = (self.turn / 4 % RESULT_CASES, self.rng.percent(50));
                    let case = result_at_limit(&mut self.rng, kind, over);
                    (rule, subject) = (case.rule, case.subject);
                }
            }
        }
        let mut file = file_of(&rule.left, &rule.right, &subject);
        if self.rng.percent(8) {
            file = damaged_file(&mut self.rng, &file);
        }
        self.plan_apply(&file);
    }

    /// Rules that feed each other, or code that no compiler wrote.
    fn make_list_run(&mut self) {
        let (codes, plan) = self.list();
        let rewrites = self.rng.below(7) as u32;
        let more = self.rng.below(40);
        let result = *self.rng.pick(&[RESULT_WORDS, plan.len(), plan.len() + more]);
        self.list_run(&table_of(&codes), &plan, rewrites, LIST_WORKING_WORDS, result);
    }

    fn list(&mut self) -> (Vec<Vec<u32>>, Vec<u32>) {
        let nodes = self.rng.between(1, 14);
        let plan = feeding_plan(&mut self.rng, nodes);
        if self.turn % 4 < 3 {
            let rules = feeding_rules(&mut self.rng, 3);
            return (rules.iter().map(code_of).collect(), plan.words());
        }
        let made: Vec<ForeignCode> = (0..2).map(|_| foreign_code(&mut self.rng)).collect();
        let terms: Vec<Term> = made.iter().map(|made| Term::of_words(&made.subject)).collect();
        let plan = planted(&mut self.rng, &plan, &terms);
        (made.into_iter().map(|made| made.code).collect(), plan.words())
    }

    /// A limit of the result met after some rewrites, and broken by one more.
    fn list_run_limit(&mut self) {
        let f = |argument| Term::Sym(1, vec![argument]);
        let z = || Term::Meta(7, Vec::new());
        let times = self.rng.between(1, 4);
        let more = self.turn / 3 % 2;
        let rewrites = (times + more) as u32;
        // Two nodes more a time, a level more a time, an index one higher a time.
        let (right, plan, words) = match self.turn % 3 {
            0 => {
                let right = Term::Sym(2, vec![Term::leaf(3), f(z())]);
                (right, f(Term::leaf(4)), 2 * (2 + 2 * times))
            }
            1 => {
                let plan = Term::chain(5, 62 - times, f(Term::leaf(4)));
                (Term::Sym(2, vec![f(z())]), plan, RESULT_WORDS)
            }
            _ => (f(Term::abst(z())), f(Term::Var(65_535 - times as u32)), RESULT_WORDS),
        };
        let code = code_of(&Rule::of(&f(z()), &right));
        self.list_run(&table_of(&[code]), &plan.words(), rewrites, LIST_WORKING_WORDS, words);
    }

    /// Each refusal before the first plan is made, alone and with a later one.
    fn list_run_refused(&mut self) {
        let (codes, mut plan) = self.list();
        let mut table = table_of(&codes);
        let (mut rewrites, mut work) = (self.rng.below(4) as u32, LIST_WORKING_WORDS);
        let turn = self.turn / 5;
        match self.turn % 5 {
            0 => plan = self.bad_subject(turn),
            1 => work = *self.rng.pick(&[0, WORKING_WORDS, LIST_WORKING_WORDS - 1]),
            2 => rewrites = *self.rng.pick(&[REWRITES + 1, 65_536, u32::MAX]),
            3 => table = [4, 2, 8, 3, 0].repeat(32 + turn % 2),
            _ => table.truncate(self.rng.below(table.len())),
        }
        if self.turn % 5 == 3 && turn % 4 > 1 {
            table.pop();
        }
        if turn % 3 == 2 {
            plan = self.bad_subject(turn);
        }
        self.list_run(&table, &plan, rewrites, work, 100);
    }

    // The calls, and how their lines are written.

    fn begin(&mut self, call: &'static str) {
        self.call = call;
        self.text.push_str(call);
    }

    fn put(&mut self, numbers: impl IntoIterator<Item = u32>) {
        for number in numbers {
            write!(self.text, " {number}").expect("a string takes every text");
        }
    }

    /// A table or bytes: how many, then each.
    fn table(&mut self, words: &[u32]) {
        self.put([words.len() as u32]);
        self.put(words.iter().copied());
    }

    fn bytes(&mut self, bytes: &[u8]) {
        self.put([bytes.len() as u32]);
        self.put(bytes.iter().map(|byte| u32::from(*byte)));
    }

    /// A lent table before the call: its length and the word that fills it.
    fn lend(&mut self, length: usize) -> Lent {
        let fill = *self.rng.pick(&FILLS);
        self.put([length as u32, fill]);
        Lent { words: vec![fill; length], fill }
    }

    /// A lent table after the call: the words at its front, then the word that
    /// fills the rest.
    fn after(&mut self, lent: &Lent, front: u32, rest: u32) {
        let (front, behind) = lent.words.split_at(front as usize);
        assert!(behind.iter().all(|word| *word == rest), "a word changed behind the front");
        self.table(front);
        self.put([rest]);
    }

    fn arrow(&mut self, number: u32) {
        self.text.push_str(" ->");
        self.number = number;
        self.put([number]);
    }

    fn compile(&mut self, rule: &Rule, table: usize) {
        self.begin("compile");
        self.table(&rule.left);
        self.table(&rule.right);
        let mut code = self.lend(table);
        let answer = compile(&rule.left, &rule.right, &mut code.words);
        self.arrow(answer.number);
        self.put([answer.words]);
        self.after(&code, answer.words, code.fill);
    }

    fn check(&mut self, code: &[u32]) {
        self.begin("check");
        self.table(code);
        self.arrow(check(code));
    }

    fn run(&mut self, code: &[u32], subject: &[u32], work: usize, result: usize) {
        self.begin("run");
        self.table(code);
        self.table(subject);
        let (mut work, mut result) = (self.lend(work), self.lend(result));
        let answer = run(code, subject, &mut work.words, &mut result.words);
        self.arrow(answer.number);
        self.put([answer.words]);
        self.after(&work, 0, 0);
        self.after(&result, answer.words, result.fill);
    }

    fn watch(&mut self, code: &[u32], subject: &[u32], i: u32) {
        self.begin("watch");
        self.table(code);
        self.table(subject);
        self.put([i]);
        let answer = watch(code, subject, i);
        self.arrow(answer.number);
        self.put([answer.current, answer.entries, answer.finished, answer.node]);
    }

    fn list_run(
        &mut self,
        table: &[u32],
        subject: &[u32],
        rewrites: u32,
        work: usize,
        result: usize,
    ) {
        self.begin("list_run");
        self.table(table);
        self.table(subject);
        self.put([rewrites]);
        let (mut work, mut result) = (self.lend(work), self.lend(result));
        let answer = list_run(table, subject, rewrites, &mut work.words, &mut result.words);
        self.arrow(answer.number);
        self.put([answer.words, answer.rewrites, answer.normal]);
        self.after(&work, 0, 0);
        self.after(&result, answer.words, result.fill);
    }

    fn read(&mut self, file: &[u8], lent: [usize; 3]) {
        self.begin("read");
        self.bytes(file);
        let mut tables = lent.map(|length| self.lend(length));
        let [left, right, subject] = &mut tables;
        let answer = read(file, &mut left.words, &mut right.words, &mut subject.words);
        self.arrow(answer.number);
        let counts = [answer.left, answer.right, answer.subject];
        self.put(counts);
        for (table, count) in tables.iter().zip(counts) {
            self.after(table, count, table.fill);
        }
    }

    fn plan_apply(&mut self, file: &[u8]) {
        self.begin("plan_apply");
        self.bytes(file);
        let line = plan_apply(file);
        let text = String::from_utf8_lossy(&line);
        let number = text.split(' ').next().and_then(|word| word.parse().ok());
        self.arrow(number.expect("a line starts with a number"));
        self.bytes(&line);
    }
}

/// The code of an accepted rule.
fn code_of(rule: &Rule) -> Vec<u32> {
    let mut code = vec![0; CODE_WORDS];
    let answer = compile(&rule.left, &rule.right, &mut code);
    code.truncate(answer.words as usize);
    code
}

/// A list's table: each rule's word count and code.
fn table_of(codes: &[Vec<u32>]) -> Vec<u32> {
    codes.iter().flat_map(|code| [&[code.len() as u32], &code[..]].concat()).collect()
}

/// How many words the result has, or a few if there is none.
fn result_words(code: &[u32], subject: &[u32]) -> usize {
    let (mut work, mut result) = (vec![0; WORKING_WORDS], vec![0; RESULT_WORDS]);
    run(code, subject, &mut work, &mut result).words.max(4) as usize
}
