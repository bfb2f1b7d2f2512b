//! Terms as trees, only to make cases from.

use crate::limits::{ARGUMENTS, SIDE_NODES};
use crate::tables::{Kind, Node};

/// A term of 004 section 2.
#[derive(Clone, Debug, PartialEq, Eq)]
pub enum Term {
    Var(u32),
    Sym(u32, Vec<Term>),
    Meta(u32, Vec<Term>),
    Abst(Box<Term>),
}

/// The most leaves of a side whose other nodes `Term::over` makes.
pub const SIDE_LEAVES: usize = SIDE_NODES - SIDE_NODES / ARGUMENTS - 1;

impl Term {
    pub fn abst(body: Term) -> Term {
        Term::Abst(Box::new(body))
    }

    /// A symbol without arguments.
    pub fn leaf(name: u32) -> Term {
        Term::Sym(name, Vec::new())
    }

    /// `times` abstractions over a term.
    pub fn under(times: usize, body: Term) -> Term {
        (0..times).fold(body, |term, _| Term::abst(term))
    }

    /// A chain of `times` unary symbols over a term.
    pub fn chain(name: u32, times: usize, end: Term) -> Term {
        (0..times).fold(end, |term, _| Term::Sym(name, vec![term]))
    }

    /// A shallow term of exactly so many nodes, made of one symbol name.
    pub fn of_nodes(name: u32, nodes: usize) -> Term {
        let below = nodes - 1;
        let count = below.min(ARGUMENTS);
        let share = |number| (below + number) / count;
        Term::Sym(name, (0..count).map(|number| Term::of_nodes(name, share(number))).collect())
    }

    /// A shallow term over these, in their order, with symbols of one name above them.
    pub fn over(name: u32, mut terms: Vec<Term>) -> Term {
        while terms.len() > 1 {
            terms = terms.chunks(ARGUMENTS).map(|some| Term::Sym(name, some.to_vec())).collect();
        }
        terms.remove(0)
    }

    /// The table that holds this term.
    pub fn words(&self) -> Vec<u32> {
        let mut words = Vec::new();
        self.write(&mut words);
        words
    }

    fn write(&self, words: &mut Vec<u32>) {
        let (node, arguments): (Node, &[Term]) = match self {
            Term::Var(index) => (Node::variable(*index), &[]),
            Term::Sym(name, all) => (Node::symbol(*name, all.len() as u32), all),
            Term::Meta(name, all) => (Node::metavariable(*name, all.len() as u32), all),
            Term::Abst(body) => (Node::abstraction(), std::slice::from_ref(&**body)),
        };
        words.extend([node.first, node.count]);
        for argument in arguments {
            argument.write(words);
        }
    }

    /// The term that a good table holds.
    pub fn of_words(words: &[u32]) -> Term {
        let mut next = 0;
        Term::read(words, &mut next)
    }

    fn read(words: &[u32], next: &mut usize) -> Term {
        let node = Node { first: words[*next], count: words[*next + 1] };
        *next += 2;
        let mut all: Vec<Term> = (0..node.count).map(|_| Term::read(words, next)).collect();
        match node.kind() {
            Kind::Variable => Term::Var(node.name()),
            Kind::Symbol => Term::Sym(node.name(), all),
            Kind::Metavariable => Term::Meta(node.name(), all),
            Kind::Abstraction => Term::abst(all.remove(0)),
        }
    }

    /// How many nodes it has.
    pub fn nodes(&self) -> usize {
        1 + self.arguments().iter().map(Term::nodes).sum::<usize>()
    }

    /// Its depth; a leaf has 1.
    pub fn depth(&self) -> usize {
        1 + self.arguments().iter().map(Term::depth).max().unwrap_or(0)
    }

    pub fn arguments(&self) -> &[Term] {
        match self {
            Term::Var(_) => &[],
            Term::Sym(_, all) | Term::Meta(_, all) => all,
            Term::Abst(body) => std::slice::from_ref(&**body),
        }
    }

    fn arguments_mut(&mut self) -> &mut [Term] {
        match self {
            Term::Var(_) => &mut [],
            Term::Sym(_, all) | Term::Meta(_, all) => all,
            Term::Abst(body) => std::slice::from_mut(&mut **body),
        }
    }

    /// Every variable, given with the abstractions of the term above it, becomes
    /// what `change` makes of it.
    pub fn change_variables(&self, inside: u32, change: &mut impl FnMut(u32, u32) -> Term) -> Term {
        let mut all = |terms: &[Term]| -> Vec<Term> {
            terms.iter().map(|term| term.change_variables(inside, change)).collect()
        };
        match self {
            Term::Var(index) => change(*index, inside),
            Term::Sym(name, terms) => Term::Sym(*name, all(terms)),
            Term::Meta(name, terms) => Term::Meta(*name, all(terms)),
            Term::Abst(body) => Term::abst(body.change_variables(inside + 1, change)),
        }
    }

    /// The subterm at a node, counted in prefix order, to be changed.
    pub fn at_mut(&mut self, number: usize) -> &mut Term {
        if number == 0 {
            return self;
        }
        let mut left = number - 1;
        for argument in self.arguments_mut() {
            let nodes = argument.nodes();
            if left < nodes {
                return argument.at_mut(left);
            }
            left -= nodes;
        }
        unreachable!("a node number is below the node count")
    }

    /// Shows each node in prefix order with the abstractions above it.
    pub fn visit<'a>(&'a self, above: u32, see: &mut impl FnMut(&'a Term, u32)) {
        see(self, above);
        let below = above + u32::from(matches!(self, Term::Abst(_)));
        for argument in self.arguments() {
            argument.visit(below, see);
        }
    }
}
