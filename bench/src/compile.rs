//! Rules to compile.

use std::hint::black_box;

use linked::numbers::{ABSENT_ON_LEFT, CODE_TABLE_SHORT, DONE, TOO_MANY_METAVARIABLES};
use second::limits::CODE_WORDS;
use second::seed::{large, Rule, Term, SIDE_LEAVES};
use Term::{Meta, Sym, Var};

use crate::{proved, Case, Side};

/// A rule, a code table, and what compiling it gives.
pub struct LentRule {
    rule: Rule,
    code: Vec<u32>,
    number: u32,
    words: usize,
}

impl Case for LentRule {
    fn named(name: &str) -> LentRule {
        let rule = rule_of(name);
        let words = code_of(&rule).len();
        let number = number_of(name);
        if number != CODE_TABLE_SHORT {
            return LentRule { rule, code: vec![0; CODE_WORDS], number, words };
        }
        LentRule { rule, code: vec![0; words - 1], number, words: 0 }
    }

    fn size(&self) -> usize {
        self.words
    }

    #[inline(always)]
    fn make(&mut self, side: Side) {
        let (left, right) = black_box((&self.rule.left[..], &self.rule.right[..]));
        let code = black_box(&mut self.code[..]);
        let answer = match side {
            Side::Proved => proved::compile(left, right, code),
            Side::Second => second::compile(left, right, code),
        };
        let answer = black_box(answer);
        assert_eq!((answer.number, answer.words as usize), (self.number, self.words));
    }
}

fn number_of(name: &str) -> u32 {
    match name {
        "refused-8" => ABSENT_ON_LEFT,
        "refused-10" => CODE_TABLE_SHORT,
        _ if name.starts_with("refused-9") => TOO_MANY_METAVARIABLES,
        _ => DONE,
    }
}

/// The code of a rule; of a refused one, none.
pub fn code_of(rule: &Rule) -> Vec<u32> {
    let mut code = vec![0; CODE_WORDS];
    let words = second::compile(&rule.left, &rule.right, &mut code).words;
    code.truncate(words as usize);
    code
}

pub fn rule_of(name: &str) -> Rule {
    match name {
        "small" => Rule::of(&Sym(1, vec![nullary(1)]), &nullary(1)),
        "beta" => beta(),
        "wide" => large::wide(),
        "deep" => large::deep(),
        "checks" => large::checks(),
        "repeated" => large::repeated(),
        "most" | "refused-10" => large::most_words(),
        "refused-8" => large::many_metavariables(SIDE_LEAVES, true),
        "refused-9" => large::many_metavariables(SIDE_LEAVES, false),
        "refused-9-one" => large::one_metavariable(),
        _ => match name.rsplit_once('-').map(|(family, size)| (family, size.parse())) {
            Some(("growing", Ok(nodes))) => large::growing(nodes),
            Some(("refused-9", Ok(many))) => large::many_metavariables(many, false),
            _ => panic!("no such rule: {name}"),
        },
    }
}

/// Rule B of document 01.
fn beta() -> Rule {
    let body = Term::abst(Meta(1, vec![Var(0)]));
    let left = Sym(1, vec![Sym(2, vec![body]), nullary(2)]);
    Rule::of(&left, &Meta(1, vec![nullary(2)]))
}

/// A metavariable without arguments.
fn nullary(name: u32) -> Term {
    Meta(name, Vec::new())
}
