//! The list run: a list of rules, run to the end (02, request 1).
//!
//! The plan stands in the working table, beside it the place of each of its
//! nodes (depth and abstractions above). A rewrite makes the new part aside,
//! moves what is behind the old one and puts it in. Since a match is a matter
//! of the subterm's own words, of the nodes before a rewrite only those above
//! it can match anew; all others before it are known to match no rule.

use crate::build::Building;
use crate::check::passes;
use crate::code::{next_instruction, IS, ISABST, NEXT, OPERAND_WORDS};
use crate::limits::{
    CODE_WORDS, DEPTH, LIST_RULES, LIST_WORKING_WORDS, NODE_WORDS, RESULT_NODES, REWRITES,
    SUBJECT_NODES,
};
use crate::matching::{accept_subject, Matching};
use crate::measure::Measuring;
use crate::refusals::{Refusal, DONE};
use crate::run::match_part;
use crate::tables::{node_at, nodes, part_at, Levels, Node, Step, FIRST_SYMBOL, ROOM};
use crate::working;

/// What the list run gives back; on refusal all but the number is 0.
#[derive(Clone, Copy, Debug, PartialEq, Eq)]
pub struct ListAnswer {
    pub number: u32,
    pub words: u32,
    /// How many rewrites were made.
    pub rewrites: u32,
    /// 1 if no rule matches any more, else 0.
    pub normal: u32,
}

/// Rewrites a plan by a list of rules, at most so many times: each time at the
/// first node where some rule matches, by the first such rule. Gives the last
/// plan at the front of the result table, or a refusal in the order 37, 16, 11,
/// 2, 1, 3, 4, 13, 14, 15 and no word of it changed. The working table comes
/// back filled with zeros.
pub fn list_run(
    rules: &[u32],
    subject: &[u32],
    rewrites: u32,
    work: &mut [u32],
    result: &mut [u32],
) -> ListAnswer {
    let outcome = run_to_the_end(rules, subject, rewrites, work, result);
    work.fill(0);
    outcome.unwrap_or_else(|refusal| ListAnswer {
        number: refusal.number(),
        words: 0,
        rewrites: 0,
        normal: 0,
    })
}

fn run_to_the_end(
    table: &[u32],
    subject: &[u32],
    rewrites: u32,
    work: &mut [u32],
    result: &mut [u32],
) -> Result<ListAnswer, Refusal> {
    let list = lay(table).ok_or(Refusal::ListTooLong)?;
    if rewrites > REWRITES {
        return Err(Refusal::ListTooLong);
    }
    if work.len() < LIST_WORKING_WORDS {
        return Err(Refusal::WorkingTableShort);
    }
    let rules = Rules::of(&list)?;
    let (links, rest) = work.split_at_mut(CODE_WORDS);
    let (places, words) = rest.split_at_mut(SUBJECT_NODES);
    let mut free_places = places.iter_mut();
    accept_subject(subject, |levels| {
        if let Some(place) = free_places.next() {
            *place = working::place(levels.depth(), levels.abstractions());
        }
    })?;
    let most_nodes = RESULT_NODES.min(result.len() / NODE_WORDS);
    let nodes = subject.len() / NODE_WORDS;
    if nodes > most_nodes {
        return Err(Refusal::ResultTooLarge);
    }
    words[..subject.len()].copy_from_slice(subject);
    let mut plan = Plan { words, places, nodes };
    let (made, normal) = rewrite(&mut plan, &rules, rewrites, links, most_nodes)?;
    let words = NODE_WORDS * plan.nodes;
    result[..words].copy_from_slice(&plan.words[..words]);
    Ok(ListAnswer { number: DONE, words: words as u32, rewrites: made, normal: normal.into() })
}

/// The rules of a table, each a word count and its code.
struct List<'a> {
    codes: [&'a [u32]; LIST_RULES],
    count: usize,
    /// The last one is cut short by the table's end, and is none of these.
    cut: bool,
}

/// Lays a table out; none if there are too many rules, a cut one counted.
fn lay(table: &[u32]) -> Option<List<'_>> {
    let mut list = List { codes: [&[]; LIST_RULES], count: 0, cut: false };
    let mut rest = table;
    while let Some((&words, behind)) = rest.split_first() {
        let code = list.codes.get_mut(list.count)?;
        if words as usize > behind.len() {
            list.cut = true;
            break;
        }
        (*code, rest) = behind.split_at(words as usize);
        list.count += 1;
    }
    Some(list)
}

/// Words of an IS.
const IS_WORDS: usize = 1 + OPERAND_WORDS[IS as usize];
/// How many sets of rules there are: nodes are told apart by the high bits of a
/// product, so that names which differ in a few bits only fall apart.
const BUCKETS: usize = 1 << BUCKET_BITS;
const BUCKET_BITS: u32 = 8;
/// Above the bits of a first word.
const COUNT_SHIFT: u32 = 18;
/// Near 2 to the power of 32 divided by the golden ratio, and odd.
const FACTOR: u32 = 0x9E37_79B1;

/// Rules that pass, sorted by the root that they ask for.
struct Rules<'a> {
    codes: &'a [&'a [u32]],
    /// Bit i is set where rule i may match a term whose root has this bucket.
    sets: [u32; BUCKETS],
}

impl<'a> Rules<'a> {
    /// The rules of a list, if all of them pass, or 11.
    fn of(list: &'a List<'a>) -> Result<Rules<'a>, Refusal> {
        let codes = &list.codes[..list.count];
        if list.cut || !codes.iter().all(|code| passes(code)) {
            return Err(Refusal::CodeDoesNotPass);
        }
        let mut sets = [0; BUCKETS];
        for (number, code) in codes.iter().enumerate() {
            let bit = 1 << number;
            match root(code) {
                Some(node) => sets[bucket(node)] |= bit,
                None => sets.iter_mut().for_each(|set| *set |= bit),
            }
        }
        Ok(Rules { codes, sets })
    }

    /// The redex at a node: the first rule of a set that matches its part.
    fn redex<'p>(&self, set: u32, node: usize, part: &'p [u32]) -> Option<Redex<'p>> {
        let mut left = set;
        while left != 0 {
            let code = self.codes[left.trailing_zeros() as usize];
            if let Some((matching, build)) = attempt(code, part) {
                return Some(Redex { node, rule: left.trailing_zeros() as usize, matching, build });
            }
            left &= left - 1;
        }
        None
    }

    /// The rules that may match a term with this root.
    #[inline]
    fn set(&self, node: Node) -> u32 {
        self.sets[bucket(node)]
    }
}

#[inline]
fn bucket(node: Node) -> usize {
    let product = (node.first | node.count << COUNT_SHIFT).wrapping_mul(FACTOR);
    (product >> (u32::BITS - BUCKET_BITS)) as usize
}

/// The root that code asks for; none if it takes every term. Before IS, ISABST
/// or NEXT the root itself is current, and no test there can say no: CHECK
/// lists nothing, and an entry is the root too.
fn root(code: &[u32]) -> Option<Node> {
    let mut at = 0;
    loop {
        match code[at] {
            IS => return Some(Node::symbol(code[at + 1], code[at + 2])),
            ISABST => return Some(Node::abstraction()),
            NEXT => return None,
            _ => at = next_instruction(code, at),
        }
    }
}

/// Matches a rule with the term at the front of a part; gives also where its
/// build part begins. The symbols that the code begins with are looked at
/// first, since most attempts end there.
#[inline]
fn attempt<'p>(code: &[u32], part: &'p [u32]) -> Option<(Matching<'p>, usize)> {
    let (mut top, mut current) = (0, 1);
    for (instruction, words) in code.chunks_exact(IS_WORDS).zip(part.chunks_exact(NODE_WORDS)) {
        let &[IS, name, count] = instruction else { break };
        if words != [FIRST_SYMBOL + name, count] {
            return None;
        }
        top += 1;
        current += count as usize;
        current -= 1;
    }
    let at = IS_WORDS * top;
    let mut matching = Matching::after(part, top, current);
    let build = match_part(code, at, &mut matching)?;
    Some((matching, build))
}

/// A plan that is rewritten.
struct Plan<'w> {
    words: &'w mut [u32],
    places: &'w mut [u32],
    nodes: usize,
}

/// The node last met at each depth: before a node of some depth has been
/// passed, those above it are the ones of lower depths.
type Path = [u16; 2 * DEPTH];

/// A node where a rule matches.
struct Redex<'p> {
    node: usize,
    rule: usize,
    matching: Matching<'p>,
    /// Where the rule's build part begins.
    build: usize,
}

/// Rewrites at most so many times; gives how many times that was, and whether
/// no rule matches any more.
fn rewrite(
    plan: &mut Plan,
    rules: &Rules,
    most: u32,
    links: &mut [u32],
    most_nodes: usize,
) -> Result<(u32, bool), Refusal> {
    let mut path = [0; 2 * DEPTH];
    let mut aside = [0; NODE_WORDS * RESULT_NODES];
    let mut found = plan.search_from(0, rules, &mut path);
    for made in 0..most {
        let Some(redex) = found else { return Ok((made, true)) };
        let nodes = plan.make(rules, &redex, links, most_nodes, &mut aside)?;
        let (node, old_nodes) = (redex.node, redex.matching.top);
        plan.put_in(node, old_nodes, &aside[..NODE_WORDS * nodes]);
        found = plan.search(node, rules, &mut path);
    }
    Ok((most, found.is_none()))
}

impl Plan<'_> {
    /// The first redex, if none stands before this node but above it.
    fn search(&self, node: usize, rules: &Rules, path: &mut Path) -> Option<Redex<'_>> {
        let depth = working::depth(self.places[node]) as usize;
        for &above in &path[1..depth] {
            let above = usize::from(above);
            let set = rules.set(node_at(self.words, above));
            if set == 0 {
                continue;
            }
            let found = rules.redex(set, above, self.part(above));
            if found.is_some() {
                return found;
            }
        }
        self.search_from(node, rules, path)
    }

    /// The part of the plan that starts at this node.
    fn part(&self, node: usize) -> &[u32] {
        part_at(&self.words[..NODE_WORDS * self.nodes], node)
    }

    /// The first redex from a node on.
    fn search_from(&self, from: usize, rules: &Rules, path: &mut Path) -> Option<Redex<'_>> {
        let mut next = from;
        while let Some((node, set)) = self.candidate(next, rules, path) {
            let found = rules.redex(set, node, self.part(node));
            if found.is_some() {
                return found;
            }
            next = node + 1;
        }
        None
    }

    /// The first node from this one on whose root some rule may ask for, with
    /// these rules. A loop of its own, since most nodes are none.
    #[inline(never)]
    fn candidate(&self, from: usize, rules: &Rules, path: &mut Path) -> Option<(usize, u32)> {
        let places = &self.places[from..self.nodes];
        for ((node, &place), root) in (from..).zip(places).zip(nodes(self.part(from))) {
            path[working::depth(place) as usize % path.len()] = node as u16;
            let set = rules.set(root);
            if set != 0 {
                return Some((node, set));
            }
        }
        None
    }

    /// Makes what a redex becomes, at the front of `aside`; gives its nodes, or
    /// refuses with 13, 14, 15 if the whole plan would then break a limit.
    fn make(
        &self,
        rules: &Rules,
        redex: &Redex,
        links: &mut [u32],
        most_nodes: usize,
        aside: &mut [u32],
    ) -> Result<usize, Refusal> {
        let Redex { node, rule, matching, build } = redex;
        let code = rules.codes[*rule];
        let (subject, places) = (self.part(*node), &self.places[*node..self.nodes]);
        let most_nodes = most_nodes + matching.top - self.nodes;
        let above = working::depth(places[0]) - 1;
        let measuring = Measuring { code, subject, matching, links, places, most_nodes, above };
        let (nodes, last) = measuring.result(*build)?;
        Building::new(code, subject, matching, (links, places), aside).result(nodes, last);
        Ok(nodes)
    }

    /// Puts a part in the place of so many nodes.
    fn put_in(&mut self, node: usize, old_nodes: usize, part: &[u32]) {
        let new_nodes = part.len() / NODE_WORDS;
        let (old_end, new_end) = (node + old_nodes, node + new_nodes);
        if old_end != new_end {
            let behind = NODE_WORDS * old_end..NODE_WORDS * self.nodes;
            self.words.copy_within(behind, NODE_WORDS * new_end);
            self.places.copy_within(old_end..self.nodes, new_end);
            self.nodes = self.nodes - old_nodes + new_nodes;
        }
        self.words[NODE_WORDS * node..NODE_WORDS * new_end].copy_from_slice(part);
        note_places(&mut self.places[node..new_end], part);
    }
}

/// Notes the places of a part's nodes below its root, whose place is known.
fn note_places(places: &mut [u32], part: &[u32]) {
    let root = places[0];
    let mut room = ROOM;
    let mut levels = Levels::at_root(&mut room);
    for (place, node) in places.iter_mut().zip(nodes(part)) {
        *place = root + working::place(levels.depth() - 1, levels.abstractions());
        if levels.pass(node) != Step::More {
            return;
        }
    }
}
