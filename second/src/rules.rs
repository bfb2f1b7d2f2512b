//! Accepted rules and their symbol table (01; 004 `crs_rule` and section 5).

use crate::code::Indices;
use crate::limits::{METAVARIABLES, NODE_WORDS, SIDE_NODES};
use crate::refusals::Refusal;
use crate::tables::{accept, node_at, nodes, part_at, Kind, Levels, Node, Room, ROOM};

/// What the first occurrence of a left metavariable fixes.
#[derive(Clone, Copy)]
pub struct Entry {
    /// Name and argument count.
    pub metavariable: Node,
    /// The number b of abstractions above it.
    pub bound: u32,
    /// Its node on the left; the arguments are the nodes after it.
    pub place: usize,
}

/// The left metavariables in the order of their first occurrences.
pub struct SymbolTable {
    entries: [Entry; METAVARIABLES],
    /// How many entries there are.
    pub len: usize,
    /// A metavariable found no room.
    over: bool,
}

impl SymbolTable {
    fn new() -> SymbolTable {
        let none = Entry { metavariable: Node::variable(0), bound: 0, place: 0 };
        SymbolTable { entries: [none; METAVARIABLES], len: 0, over: false }
    }

    /// The number of a metavariable's entry, from the first occurrence on.
    pub fn lookup(&self, metavariable: Node) -> Option<usize> {
        self.entries[..self.len].iter().position(|entry| entry.metavariable == metavariable)
    }

    pub fn entry(&self, number: usize) -> Entry {
        self.entries[number]
    }

    /// The location: the last first occurrence has 0.
    pub fn location(&self, number: usize) -> u32 {
        (self.len - 1 - number) as u32
    }

    fn enter(&mut self, entry: Entry) {
        if self.lookup(entry.metavariable).is_some() {
            return;
        }
        if self.len == METAVARIABLES {
            self.over = true;
            return;
        }
        self.entries[self.len] = entry;
        self.len += 1;
    }
}

/// Accepts a rule and gives its symbol table, or refuses: left 2, 1, 3;
/// right 2, 1, 3; then 5 to 9.
pub fn accept_rule(left: &[u32], right: &[u32]) -> Result<SymbolTable, Refusal> {
    let mut free = false;
    let mut see = |node: Node, levels: &Levels| {
        free |= node.kind() == Kind::Variable && node.name() >= levels.abstractions();
    };
    accept(left, SIDE_NODES, &mut see)?;
    accept(right, SIDE_NODES, &mut see)?;
    if node_at(left, 0).kind() != Kind::Symbol {
        return Err(Refusal::LeftRootNoSymbol);
    }
    if free {
        return Err(Refusal::FreeVariable);
    }
    let table = create_table(left)?;
    stand_on_left(&table, left, right)?;
    if table.over {
        return Err(Refusal::TooManyMetavariables);
    }
    Ok(table)
}

/// A walk of a left side that takes a metavariable with its arguments for one
/// step, as the translation does.
pub struct LeftWalk<'a, 'r> {
    left: &'a [u32],
    next: usize,
    levels: Levels<'r>,
}

impl<'a, 'r> LeftWalk<'a, 'r> {
    pub fn new(left: &'a [u32], room: &'r mut Room) -> LeftWalk<'a, 'r> {
        LeftWalk { left, next: 0, levels: Levels::at_root(room) }
    }
}

impl Iterator for LeftWalk<'_, '_> {
    /// A node, its number and the abstractions above it.
    type Item = (Node, usize, u32);

    fn next(&mut self) -> Option<(Node, usize, u32)> {
        if NODE_WORDS * self.next >= self.left.len() {
            return None;
        }
        let node = node_at(self.left, self.next);
        let seen = (node, self.next, self.levels.abstractions());
        self.next += 1;
        if node.kind() == Kind::Metavariable {
            self.next += node.count as usize;
            self.levels.pass_leaf();
        } else {
            self.levels.pass(node);
        }
        Some(seen)
    }
}

/// Enters every first occurrence, or refuses with 7. No side has a free
/// variable here, so every index is below 64.
fn create_table(left: &[u32]) -> Result<SymbolTable, Refusal> {
    let mut table = SymbolTable::new();
    let mut room = ROOM;
    for (node, place, bound) in LeftWalk::new(left, &mut room) {
        if node.kind() != Kind::Metavariable {
            continue;
        }
        let mut met = Indices(0);
        for argument in arguments(left, place) {
            if argument.kind() != Kind::Variable || met.contains(argument.name()) {
                return Err(Refusal::ArgumentsNotDistinctVariables);
            }
            met.insert(argument.name());
        }
        table.enter(Entry { metavariable: node, bound, place });
    }
    Ok(table)
}

/// The nodes after a left metavariable, as many as it has arguments: those
/// arguments, as far as they are variables.
pub fn arguments(left: &[u32], place: usize) -> impl Iterator<Item = Node> + '_ {
    let count = node_at(left, place).count as usize;
    nodes(part_at(left, place + 1)).take(count)
}

/// Refuses with 8 unless every right metavariable stands on the left. Looks
/// among all left ones, not among the sixteen that the table holds.
fn stand_on_left(table: &SymbolTable, left: &[u32], right: &[u32]) -> Result<(), Refusal> {
    if table.over {
        return stand_among_all(left, right);
    }
    for node in nodes(right) {
        if node.kind() == Kind::Metavariable && table.lookup(node).is_none() {
            return Err(Refusal::AbsentOnLeft);
        }
    }
    Ok(())
}

/// The same for a left side with more metavariables than the table holds:
/// sorted, so that no rule costs a look at every pair of nodes.
#[cold]
fn stand_among_all(left: &[u32], right: &[u32]) -> Result<(), Refusal> {
    let mut keys = [(0, 0); SIDE_NODES];
    let mut found = 0;
    for node in nodes(left).filter(|node| node.kind() == Kind::Metavariable) {
        keys[found] = (node.first, node.count);
        found += 1;
    }
    let keys = &mut keys[..found];
    keys.sort_unstable();
    for node in nodes(right).filter(|node| node.kind() == Kind::Metavariable) {
        if keys.binary_search(&(node.first, node.count)).is_err() {
            return Err(Refusal::AbsentOnLeft);
        }
    }
    Ok(())
}
