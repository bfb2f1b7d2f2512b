//! Terms and node tables (01; 004 section 2).
//!
//! A table holds a term in prefix order, two words a node. A subterm is a part
//! of the table that starts at its first node; nothing is ever copied to be
//! looked at.

use crate::limits::{ARGUMENTS, DEPTH, INDEX, NODE_WORDS};
use crate::refusals::Refusal;

/// What a node is: the high half of its first word.
#[derive(Clone, Copy, Debug, PartialEq, Eq)]
pub enum Kind {
    Variable = 0,
    Symbol = 1,
    Metavariable = 2,
    Abstraction = 3,
}

const KIND_SHIFT: u32 = 16;
/// First words at and above which a node is no longer of the kind before.
pub const FIRST_SYMBOL: u32 = (Kind::Symbol as u32) << KIND_SHIFT;
const FIRST_METAVARIABLE: u32 = (Kind::Metavariable as u32) << KIND_SHIFT;
/// The one first word of an abstraction.
pub const ABSTRACTION: u32 = (Kind::Abstraction as u32) << KIND_SHIFT;

/// A node's two words. Symbols and metavariables are known by both together.
#[derive(Clone, Copy, Debug, PartialEq, Eq)]
pub struct Node {
    pub first: u32,
    pub count: u32,
}

impl Node {
    pub fn variable(index: u32) -> Node {
        Node { first: index, count: 0 }
    }

    pub fn symbol(name: u32, count: u32) -> Node {
        Node { first: FIRST_SYMBOL + name, count }
    }

    pub fn metavariable(name: u32, count: u32) -> Node {
        Node { first: FIRST_METAVARIABLE + name, count }
    }

    pub fn abstraction() -> Node {
        Node { first: ABSTRACTION, count: 1 }
    }

    /// The node's kind, if the node is in the layout.
    #[inline]
    pub fn kind(self) -> Kind {
        if self.first < FIRST_SYMBOL {
            Kind::Variable
        } else if self.first < FIRST_METAVARIABLE {
            Kind::Symbol
        } else if self.first < ABSTRACTION {
            Kind::Metavariable
        } else {
            Kind::Abstraction
        }
    }

    /// A variable's index, a symbol's or metavariable's name.
    #[inline]
    pub fn name(self) -> u32 {
        self.first & INDEX
    }

    #[inline]
    fn in_layout(self) -> bool {
        match self.kind() {
            Kind::Variable => self.count == 0,
            Kind::Symbol | Kind::Metavariable => self.count as usize <= ARGUMENTS,
            Kind::Abstraction => self.first == ABSTRACTION && self.count == 1,
        }
    }
}

/// The nodes of a table or part, in order.
#[inline]
pub fn nodes(part: &[u32]) -> impl Iterator<Item = Node> + '_ {
    part.chunks_exact(NODE_WORDS).map(|words| Node { first: words[0], count: words[1] })
}

/// The node with this number.
#[inline]
pub fn node_at(table: &[u32], number: usize) -> Node {
    Node { first: table[NODE_WORDS * number], count: table[NODE_WORDS * number + 1] }
}

/// The part of a table that starts at this node.
#[inline]
pub fn part_at(table: &[u32], number: usize) -> &[u32] {
    &table[NODE_WORDS * number..]
}

/// How many nodes the subterm at the front of a part of a good table has.
#[inline]
pub fn subterm_nodes(part: &[u32]) -> usize {
    let mut owed = 1;
    let mut passed = 0;
    for node in nodes(part) {
        owed = owed + node.count - 1;
        passed += 1;
        if owed == 0 {
            break;
        }
    }
    passed
}

/// Where a walk stands after a node.
#[derive(Clone, Copy, Debug, PartialEq, Eq)]
pub enum Step {
    /// More nodes of the term follow.
    More,
    /// That was the term's last node.
    Done,
    /// The node's arguments would be deeper than the limit; it was not passed.
    TooDeep,
}

/// The levels above the place of a walk in prefix order: how many arguments
/// each still owes, and which of them are abstractions. The only walk of a
/// term in this library that needs more than a count.
pub struct Levels<'r> {
    /// Arguments that the nearest level owes, with `BINDS` added for an
    /// abstraction; at the root the one term. It changes with every node, so
    /// it is kept apart from the others.
    owing: u8,
    /// The same for the levels above that one, the root's first.
    above: &'r mut Room,
    open: usize,
    abstractions: u32,
}

/// Room for the levels of a walk. Lent to it, since numbers that stand beside
/// an array cannot be kept in registers. A node at the limit has no arguments.
pub type Room = [u8; DEPTH - 1];

/// Room that holds no level yet.
pub const ROOM: Room = [0; DEPTH - 1];

const BINDS_SHIFT: u32 = 7;
const BINDS: u8 = 1 << BINDS_SHIFT;

impl<'r> Levels<'r> {
    /// At the root of a term.
    pub fn at_root(room: &'r mut Room) -> Levels<'r> {
        Levels { owing: 1, above: room, open: 0, abstractions: 0 }
    }

    /// The depth of the node that the walk stands at.
    #[inline]
    pub fn depth(&self) -> usize {
        self.open + 1
    }

    /// The abstractions above the node that the walk stands at.
    #[inline]
    pub fn abstractions(&self) -> u32 {
        self.abstractions
    }

    /// Passes a node.
    #[inline]
    pub fn pass(&mut self, node: Node) -> Step {
        if node.count == 0 {
            return self.pass_leaf();
        }
        let Some(level) = self.above.get_mut(self.open) else { return Step::TooDeep };
        let binds = u8::from(node.first == ABSTRACTION);
        *level = self.owing;
        self.owing = node.count as u8 | binds << BINDS_SHIFT;
        self.abstractions += u32::from(binds);
        self.open += 1;
        Step::More
    }

    /// Passes a node without arguments, or with arguments that the caller passed.
    #[inline]
    pub fn pass_leaf(&mut self) -> Step {
        loop {
            self.owing -= 1;
            if self.owing & !BINDS != 0 {
                return Step::More;
            }
            // The root has no level above it.
            let above = self.open.wrapping_sub(1);
            let Some(level) = self.above.get(above) else { return Step::Done };
            self.abstractions -= u32::from(self.owing >> BINDS_SHIFT);
            self.owing = *level;
            self.open = above;
        }
    }
}

/// Accepts a good table within the limits, or refuses with 2, 1, 3 in this
/// order. Shows each node of a good table, with its levels, on the way.
#[inline]
pub fn accept(
    table: &[u32],
    most_nodes: usize,
    mut see: impl FnMut(Node, &Levels),
) -> Result<(), Refusal> {
    if table.len() > NODE_WORDS * most_nodes {
        return Err(Refusal::TooManyWords);
    }
    if !table.len().is_multiple_of(NODE_WORDS) {
        return Err(Refusal::TableNotGood);
    }
    let mut room = ROOM;
    let mut levels = Levels::at_root(&mut room);
    let mut rest = nodes(table);
    while let Some(node) = rest.next() {
        if !node.in_layout() {
            return Err(Refusal::TableNotGood);
        }
        see(node, &levels);
        match levels.pass(node) {
            Step::More => {}
            Step::Done if rest.next().is_none() => return Ok(()),
            Step::Done => return Err(Refusal::TableNotGood),
            Step::TooDeep if is_good(table) => return Err(Refusal::TooDeep),
            Step::TooDeep => return Err(Refusal::TableNotGood),
        }
    }
    Err(Refusal::TableNotGood)
}

/// Whether a table is good, however deep: 1 comes before 3.
#[cold]
fn is_good(table: &[u32]) -> bool {
    let mut owed = 1;
    for node in nodes(table) {
        if owed == 0 || !node.in_layout() {
            return false;
        }
        owed = owed + node.count - 1;
    }
    owed == 0
}
