//! 004 section 4: the machine. The head of each list is its last element.

use super::terms::{abst, size, Term};
use Term::*;

#[derive(Clone, Debug, PartialEq, Eq)]
pub enum Instruction {
    Is(u32, usize),
    IsAbst,
    Next,
    Check(Vec<i64>),
    Set,
    EqVar(i64),
    EqImm(usize),
    EqI(usize, i64, Vec<(i64, i64)>),
    Cell(u32, usize),
    Lambda,
    Adbmal,
    PushVar(i64),
    PushImm(usize),
    PushI(usize, i64, Vec<(i64, Vec<Instruction>)>),
}
use Instruction::*;

impl Instruction {
    pub fn matches(&self) -> bool {
        matches!(self, Is(..) | IsAbst | Next | Check(_) | Set | EqVar(_) | EqImm(_) | EqI(..))
    }
}

/// How an execution stops before its end.
#[derive(Clone, Copy, Debug, PartialEq, Eq)]
pub enum Stop {
    /// The paper's exception.
    Failure,
    /// More nodes were made than any result may have; only to stay naive.
    TooLarge,
}

/// Nodes after which the model gives up, over 01's limit.
const ENOUGH: usize = 5_000;

#[derive(Clone, Default)]
pub struct Machine {
    pub curr: Vec<Term>,
    pub env: Vec<Term>,
    pub stack: Vec<Term>,
    pub offset: i64,
    pub nstack: Vec<i64>,
    made: usize,
}

fn test(p: bool) -> Result<(), Stop> {
    if p {
        Ok(())
    } else {
        Err(Stop::Failure)
    }
}

/// `select n` from the head of a list.
fn select<T>(n: usize, list: &[T]) -> &T {
    &list[list.len() - 1 - n]
}

fn assoc<T: Clone>(pairs: &[(i64, T)], key: i64) -> Option<T> {
    pairs.iter().find(|pair| pair.0 == key).map(|pair| pair.1.clone())
}

impl Machine {
    pub fn start(t: &Term) -> Machine {
        Machine { curr: vec![t.clone()], ..Machine::default() }
    }

    fn top(&self) -> &Term {
        self.curr.last().expect("an instruction has no step")
    }

    pub fn exec(&mut self, c: &Instruction) -> Result<(), Stop> {
        match c {
            Is(s, n) => match self.top().clone() {
                Sym(t, bs) => {
                    test(*s == t && bs.len() == *n)?;
                    self.curr.pop();
                    self.curr.extend(bs.into_iter().rev());
                    Ok(())
                }
                _ => Err(Stop::Failure),
            },
            IsAbst => match self.top().clone() {
                Abst(t) => {
                    self.curr.pop();
                    self.curr.push(*t);
                    Ok(())
                }
                _ => Err(Stop::Failure),
            },
            Next => self.curr.pop().map(|_| ()).ok_or(Stop::Failure),
            Check(vs) => test(check(vs, 0, self.top())),
            Set => {
                self.env.push(self.top().clone());
                Ok(())
            }
            EqVar(n) => test(*self.top() == Var(*n)),
            EqImm(n) => test(self.top() == select(*n, &self.env)),
            EqI(n, d, vvs) => test(equal(*d, vvs, 0, select(*n, &self.env), self.top())),
            _ => self.build(c),
        }
    }

    fn build(&mut self, c: &Instruction) -> Result<(), Stop> {
        match c {
            Cell(s, n) => self.cell(*s, *n)?,
            Lambda => self.nstack.push(0),
            Adbmal => {
                self.abstract_top()?;
                self.nstack.pop().expect("a LAMBDA is open");
            }
            PushVar(x) => {
                let y = *select(*x as usize, &self.nstack);
                self.push_term(Var(x + y))?;
            }
            PushImm(n) => {
                let t = select(*n, &self.env).clone();
                self.made += size(&t) - 1;
                self.push_term(t)?;
            }
            PushI(n, d, acs) => {
                let t = select(*n, &self.env).clone();
                self.push(0, &t, *d, acs)?;
            }
            _ => unreachable!("match instructions are executed above"),
        }
        Ok(())
    }

    fn push_term(&mut self, t: Term) -> Result<(), Stop> {
        self.made += 1;
        self.stack.push(t);
        if self.made > ENOUGH {
            return Err(Stop::TooLarge);
        }
        Ok(())
    }

    fn cell(&mut self, s: u32, n: usize) -> Result<(), Stop> {
        let args = self.stack.split_off(self.stack.len() - n);
        self.push_term(Sym(s, args))
    }

    fn abstract_top(&mut self) -> Result<(), Stop> {
        let t = self.stack.pop().expect("a term is finished");
        self.push_term(abst(t))
    }

    fn push(
        &mut self,
        n: i64,
        t: &Term,
        d: i64,
        acs: &[(i64, Vec<Instruction>)],
    ) -> Result<(), Stop> {
        match t {
            Var(x) if *x < n => self.push_term(t.clone()),
            Var(x) => match assoc(acs, x - n) {
                None => self.push_term(Var(x + d + self.offset)),
                Some(bs) => {
                    self.nstack.iter_mut().for_each(|y| *y += n);
                    self.offset += n;
                    bs.iter().try_for_each(|c| self.exec(c))?;
                    self.offset -= n;
                    self.nstack.iter_mut().for_each(|y| *y -= n);
                    Ok(())
                }
            },
            Abst(t) => {
                self.push(n + 1, t, d, acs)?;
                self.abstract_top()
            }
            Sym(s, bs) => {
                bs.iter().try_for_each(|b| self.push(n, b, d, acs))?;
                self.cell(*s, bs.len())
            }
            Meta(..) => unreachable!("subjects have no metavariables"),
        }
    }
}

fn check(vs: &[i64], n: i64, t: &Term) -> bool {
    match t {
        Var(k) => *k < n || !vs.contains(&(k - n)),
        Sym(_, bs) | Meta(_, bs) => bs.iter().all(|b| check(vs, n, b)),
        Abst(t) => check(vs, n + 1, t),
    }
}

fn equal(d: i64, vvs: &[(i64, i64)], k: i64, t: &Term, u: &Term) -> bool {
    let eqlist = |xs: &[Term], ys: &[Term]| {
        xs.len() == ys.len() && xs.iter().zip(ys).all(|(x, y)| equal(d, vvs, k, x, y))
    };
    match (t, u) {
        (Var(x), Var(y)) if *x < k => x == y,
        (Var(x), Var(y)) => assoc(vvs, x - k).unwrap_or(x - k + d) == y - k,
        (Sym(s, bs), Sym(t, at)) => s == t && eqlist(bs, at),
        (Meta(z, bs), Meta(y, at)) => z == y && eqlist(bs, at),
        (Abst(a), Abst(b)) => equal(d, vvs, k + 1, a, b),
        _ => false,
    }
}

/// 004's `run`: the finished term.
pub fn run(t: &Term, cs: &[Instruction]) -> Result<Term, Stop> {
    let mut machine = Machine::start(t);
    cs.iter().try_for_each(|c| machine.exec(c))?;
    assert_eq!(machine.stack.len(), 1, "one finished term");
    assert!(machine.curr.is_empty() && machine.offset == 0 && machine.nstack.is_empty());
    Ok(machine.stack.remove(0))
}
