//! Code to check.

use std::hint::black_box;

use linked::code::*;
use linked::numbers::{CODE_DOES_NOT_PASS, DONE};
use second::limits::{ARGUMENTS, BINDERS, CODE_WORDS, NESTING};

use crate::compile::{code_of, rule_of};
use crate::{proved, Case, Side};

/// Code, and what checking it gives.
pub struct LentCode {
    code: Vec<u32>,
    number: u32,
}

impl Case for LentCode {
    fn named(name: &str) -> LentCode {
        let number = if name.starts_with("refused") { CODE_DOES_NOT_PASS } else { DONE };
        LentCode { code: code_named(name), number }
    }

    fn size(&self) -> usize {
        self.code.len()
    }

    #[inline(always)]
    fn make(&mut self, side: Side) {
        let code = black_box(&self.code[..]);
        let number = match side {
            Side::Proved => proved::check(code),
            Side::Second => second::check(code),
        };
        assert_eq!(black_box(number), self.number);
    }
}

fn code_named(name: &str) -> Vec<u32> {
    match name {
        "beta" | "most" => code_of(&rule_of(name)),
        "nested-bodies" => in_levels(&[Level::Body; NESTING]),
        "nested-blocks" => in_levels(&[&[Level::Block; BINDERS][..], &[Level::Body]].concat()),
        "nested-both" => in_levels(&[Level::Block, Level::Body].repeat(NESTING / 2)),
        "refused-last" => without_last(family("cells", CODE_WORDS)),
        "refused-long" => family("match", CODE_WORDS + 8),
        _ => match name.rsplit_once('-').map(|(name, words)| (name, words.parse())) {
            Some((name, Ok(words))) => family(name, words),
            _ => panic!("no such code: {name}"),
        },
    }
}

/// A leaf in these levels; the entry that their bodies need comes before.
fn in_levels(levels: &[Level]) -> Vec<u32> {
    [&[ISABST, SET, NEXT], &nested(levels, &LEAF)[..]].concat()
}

/// All the work, and then no whole instruction.
fn without_last(mut code: Vec<u32>) -> Vec<u32> {
    code.pop();
    code
}

/// A symbol without arguments; one over two terms; and the end of a match part, with such a leaf.
const LEAF: [u32; 3] = [CELL, 1, 0];
const TWO: [u32; 3] = [CELL, 1, 2];
const END: [u32; 4] = [NEXT, CELL, 1, 0];

/// Code of nearly so many words, most of them in one instruction or a few, again and again.
fn family(name: &str, words: usize) -> Vec<u32> {
    let all: Vec<u32> = (0..BINDERS as u32).collect();
    let deepest = vec![ISABST; BINDERS];
    let guarded = [&deepest, &check(&all)[..], &[SET]].concat();
    let eqi_alone = eqi(0, difference(0, 0), &[]);
    let with_two = |instruction: &[u32]| [instruction, &TWO].concat();
    match name {
        "match" => filled(words, &[], &[IS, 1, 2, ISABST, EQVAR, 0, NEXT], &END),
        "checks" => filled(words, &deepest, &check(&all), &END),
        "eqi" => filled(words, &[SET], &eqi_alone, &END),
        "eqi-pairs" => {
            let pairs: Vec<[u32; 2]> = (0..ARGUMENTS as u32).map(|index| [index, index]).collect();
            let begin = [&[ISABST; ARGUMENTS][..], &[SET]].concat();
            filled(words, &begin, &eqi(0, difference(0, 0), &pairs), &END)
        }
        "eqi-guard" => filled(words, &guarded, &eqi_alone, &END),
        "cells" => filled(words, &END, &with_two(&LEAF), &[]),
        "blocks" => filled(words, &END, &with_two(&in_blocks(1, &[PUSHVAR, 0])), &[]),
        "pushi-body" => {
            let begin = [&[ISABST, SET], &END[..]].concat();
            let pushed = pushi(0, difference(0, 1), &[(0, LEAF.to_vec())]);
            filled(words, &begin, &with_two(&pushed), &[])
        }
        "pushi-guard" => {
            let pushed = pushi(0, difference(0, BINDERS), &[]);
            filled(words, &[&guarded[..], &END].concat(), &with_two(&pushed), &[])
        }
        _ => panic!("no such code: {name}"),
    }
}

/// As many pieces as so many words have room for, between a beginning and an end.
fn filled(words: usize, begin: &[u32], piece: &[u32], end: &[u32]) -> Vec<u32> {
    let pieces = (words - begin.len() - end.len()) / piece.len();
    [begin, &piece.repeat(pieces), end].concat()
}
