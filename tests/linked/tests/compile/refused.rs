//! Rules that are refused for one thing, at any place where it can stand.

use linked::compile::Compile;
use second::limits::{ARGUMENTS, BINDERS, DEPTH, INDEX, METAVARIABLES, NODE_WORDS, SIDE_NODES};
use second::seed::{good_rule, Rng, Rule, Term, SIDE_LEAVES};

use crate::accepted::{
    applied, name, nested_bodies, repeated, small, with_metavariables, Metavariable,
};
use crate::lent::at_any_length;
use crate::spoilt;

/// A rule with another left side in one call, with another right side in the other.
fn on_either_side(rng: &mut Rng, change: fn(&mut Rng, &mut Vec<u32>)) -> Vec<Compile> {
    let (mut left, mut right) = (small(rng), small(rng));
    change(rng, &mut left.left);
    change(rng, &mut right.right);
    vec![at_any_length(rng, &left), at_any_length(rng, &right)]
}

// 1: table not good.

/// Every part of a side that begins where it begins, the empty one too.
pub fn every_cut(rng: &mut Rng) -> Vec<Compile> {
    let rule = small(rng);
    let cut = |side: &[u32]| (0..side.len()).map(|end| side[..end].to_vec()).collect();
    let (lefts, rights): (Vec<_>, Vec<_>) = (cut(&rule.left), cut(&rule.right));
    let left = lefts.into_iter().map(|left| Rule { left, right: rule.right.clone() });
    let right = rights.into_iter().map(|right| Rule { left: rule.left.clone(), right });
    left.chain(right).map(|rule| at_any_length(rng, &rule)).collect()
}

pub fn words_after(rng: &mut Rng) -> Vec<Compile> {
    on_either_side(rng, |rng, side| {
        let another = small(rng).right;
        spoilt::words_after(rng, side, another);
    })
}

pub fn no_such_node(rng: &mut Rng) -> Vec<Compile> {
    on_either_side(rng, |rng, side| spoilt::no_such_node(rng, side))
}

pub fn another_count(rng: &mut Rng) -> Vec<Compile> {
    on_either_side(rng, |rng, side| spoilt::another_count(rng, side))
}

// 2: more words than its node limit allows.

/// Words of any value, a good table with words after it, or a good one of too many nodes.
pub fn too_many_words(rng: &mut Rng) -> Vec<Compile> {
    on_either_side(rng, |rng, side| {
        let words = NODE_WORDS * SIDE_NODES + *rng.pick(&[1, 2, 3, 64, 512, 1_500]);
        match rng.below(3) {
            0 => *side = (0..words).map(|_| rng.bits() as u32).collect(),
            1 => side.resize(words, rng.below(2) as u32),
            _ => *side = Term::of_nodes(name(rng), words.div_ceil(NODE_WORDS)).words(),
        }
    })
}

// 5: left root no symbol.

/// A metavariable, an abstraction, or a variable, which is free besides.
pub fn root_no_symbol(rng: &mut Rng) -> Vec<Compile> {
    let Rule { left, right } = small(rng);
    let count = rng.below(ARGUMENTS + 1);
    let arguments = (0..count as u32).map(Term::Var).collect();
    let roots = [
        Term::Meta(name(rng), Vec::new()),
        Term::Meta(name(rng), arguments),
        Term::Meta(name(rng), vec![Term::of_words(&left)]),
        Term::abst(Term::of_words(&left)),
        Term::Var(name(rng)),
    ];
    let rules = roots.map(|root| Rule { left: root.words(), right: right.clone() });
    rules.iter().map(|rule| at_any_length(rng, rule)).collect()
}

// 6: free variable in a side.

/// A node of either side becomes a free variable, a metavariable's argument too.
pub fn free_variable(rng: &mut Rng) -> Vec<Compile> {
    let rule = *rng.pick(&[small, nested_bodies, repeated]);
    let rule = rule(rng);
    let right = Rule { left: rule.left.clone(), right: with_free(rng, &rule.right, 0) };
    // The left root stays a symbol.
    let left = Rule { left: with_free(rng, &rule.left, 1), right: rule.right };
    [left, right].iter().map(|rule| at_any_length(rng, rule)).collect()
}

/// A side with a free variable in place of one of its nodes from this one on.
fn with_free(rng: &mut Rng, side: &[u32], from: usize) -> Vec<u32> {
    let mut term = Term::of_words(side);
    let mut above = Vec::new();
    term.visit(0, &mut |_, abstractions| above.push(abstractions));
    let node = rng.between(from, above.len() - 1);
    let far = rng.between(above[node] as usize, INDEX as usize) as u32;
    let index =
        *rng.pick(&[above[node], above[node], above[node] + 1, BINDERS as u32 + 1, far, INDEX]);
    *term.at_mut(node) = Term::Var(index.max(above[node]));
    term.words()
}

// 7: left metavariable's arguments not distinct variables.

/// A metavariable under two abstractions whose arguments are not distinct variables.
pub fn bad_arguments(rng: &mut Rng) -> Term {
    let mut arguments = vec![Term::Var(rng.below(2) as u32)];
    let other = match rng.below(6) {
        0 => Term::leaf(name(rng)),
        1 => Term::Meta(name(rng), Vec::new()),
        2 => Term::Meta(name(rng), arguments.clone()),
        3 => Term::abst(Term::Var(0)),
        4 => Term::Sym(name(rng), arguments.clone()),
        _ => arguments[0].clone(),
    };
    arguments.insert(rng.below(2), other);
    Term::under(2, Term::Meta(name(rng), arguments))
}

/// Such a one beside or below the others, where it is the first of its name and count or a later
/// one; and one with two arguments alike, out of up to eight.
pub fn arguments(rng: &mut Rng) -> Vec<Compile> {
    let rule = small(rng);
    let calls = [bad_arguments(rng), repeated_argument(rng), later_one_bad(rng)].map(|bad| {
        let mut sides = [Term::of_words(&rule.left), bad];
        if rng.percent(50) {
            sides.reverse();
        }
        let left = Term::Sym(name(rng), sides.to_vec()).words();
        at_any_length(rng, &Rule { left, right: rule.right.clone() })
    });
    calls.into()
}

fn repeated_argument(rng: &mut Rng) -> Term {
    let (count, above) = (rng.between(2, ARGUMENTS), rng.between(ARGUMENTS, BINDERS - 3));
    let metavariable = (name(rng), count);
    let mut occurrence = applied(rng, metavariable, above);
    if let Term::Meta(_, arguments) = &mut occurrence {
        let places = rng.distinct(2, count);
        arguments[places[0] as usize] = arguments[places[1] as usize].clone();
    }
    Term::under(above, occurrence)
}

fn later_one_bad(rng: &mut Rng) -> Term {
    let metavariable = name(rng);
    let good = Term::Meta(metavariable, vec![Term::Var(1), Term::Var(0)]);
    let alike = Term::Var(rng.below(2) as u32);
    let bad = Term::Meta(metavariable, vec![alike.clone(), alike]);
    Term::under(2, Term::Sym(name(rng), vec![good, bad]))
}

// 8: right metavariable absent on left.

/// A right metavariable gets another name or an argument more or less, at any place.
pub fn absent_on_left(rng: &mut Rng) -> Vec<Compile> {
    let make = *rng.pick(&[good_rule, nested_bodies, repeated]);
    loop {
        let mut rule = make(rng);
        if let Some(right) = with_absent(rng, &rule) {
            rule.right = right;
            return vec![at_any_length(rng, &rule)];
        }
    }
}

/// The right side with such a change, if it has a metavariable and the change made it absent.
fn with_absent(rng: &mut Rng, rule: &Rule) -> Option<Vec<u32>> {
    let mut right = Term::of_words(&rule.right);
    let places: Vec<usize> = occurrences(&right).into_iter().map(|(place, ..)| place).collect();
    if places.is_empty() {
        return None;
    }
    let changed = right.at_mut(*rng.pick(&places));
    if let Term::Meta(name, arguments) = changed {
        match rng.below(4) {
            0 => *name ^= 1,
            1 => *name = rng.below(INDEX as usize) as u32,
            2 if arguments.len() < ARGUMENTS => arguments.push(Term::leaf(1)),
            _ => arguments.truncate(arguments.len().saturating_sub(1)),
        }
    }
    let left = Term::of_words(&rule.left);
    let known: Vec<_> =
        occurrences(&left).into_iter().map(|(_, name, count)| (name, count)).collect();
    let absent =
        occurrences(&right).iter().any(|(_, name, count)| !known.contains(&(*name, *count)));
    let within = right.nodes() <= SIDE_NODES && right.depth() <= DEPTH;
    (absent && within).then(|| right.words())
}

/// As many metavariables as a side has room for, and on the right any of them; then the same but
/// for one. The names have eight bits somewhere, so that many agree in those that are asked first.
pub fn among_many(rng: &mut Rng) -> Vec<Compile> {
    const NAMES: u32 = 256;
    let counts = rng.between(1, 3);
    let many = rng.between(METAVARIABLES + 1, (SIDE_NODES - 40) / counts);
    let shift = rng.below(9);
    let numbers = rng.distinct(many, NAMES as usize * counts);
    let known: Vec<Metavariable> =
        numbers.into_iter().map(|n| ((n % NAMES) << shift, (n / NAMES) as usize)).collect();
    let left = known.iter().map(|one| applied(rng, *one, counts)).collect();
    let left = Term::Sym(name(rng), vec![Term::under(counts, Term::over(1, left))]);
    let right = (0..rng.between(1, many)).map(|_| {
        let (name, count) = *rng.pick(&known);
        Term::Meta(name, vec![Term::leaf(1); count])
    });
    let right = Term::over(1, right.collect());
    let all_known = Rule::of(&left, &right);
    let absent = with_absent(rng, &all_known).map(|right| Rule { right, ..all_known.clone() });
    absent.iter().chain([&all_known]).map(|rule| at_any_length(rng, rule)).collect()
}

/// The node number, name and count of each metavariable.
fn occurrences(side: &Term) -> Vec<(usize, u32, usize)> {
    let (mut found, mut place) = (Vec::new(), 0);
    side.visit(0, &mut |term, _| {
        if let Term::Meta(name, arguments) = term {
            found.push((place, *name, arguments.len()));
        }
        place += 1;
    });
    found
}

// 9: over 16 left metavariables.

/// Also the right side's ones may be those after the sixteenth.
pub fn metavariables(rng: &mut Rng) -> Vec<Compile> {
    let count = METAVARIABLES + rng.between(1, 12);
    let rule = with_metavariables(rng, count);
    vec![at_any_length(rng, &rule), to_the_last(rng)]
}

/// Up to as many as a left side holds, each of them on the right too.
fn to_the_last(rng: &mut Rng) -> Compile {
    let count = rng.between(METAVARIABLES + 1, SIDE_LEAVES);
    let order = rng.distinct(count, count);
    let right = of_metavariables(order.iter().rev().copied());
    let rule = Rule::of(&of_metavariables(order.into_iter()), &right);
    at_any_length(rng, &rule)
}

/// A term of metavariables with these names and no arguments.
pub fn of_metavariables(names: impl Iterator<Item = u32>) -> Term {
    Term::over(0, names.map(|name| Term::Meta(name, Vec::new())).collect())
}
