//! 004 section 2, and 01's tables.

#[derive(Clone, Debug, PartialEq, Eq)]
pub enum Term {
    Var(i64),
    Sym(u32, Vec<Term>),
    Meta(u32, Vec<Term>),
    Abst(Box<Term>),
}
use Term::*;

pub fn abst(t: Term) -> Term {
    Abst(Box::new(t))
}

pub type Subst<'a> = &'a dyn Fn(i64) -> Term;

pub fn subst(f: Subst, t: &Term) -> Term {
    match t {
        Var(x) => f(*x),
        Sym(s, ts) => Sym(*s, ts.iter().map(|t| subst(f, t)).collect()),
        Meta(z, ts) => Meta(*z, ts.iter().map(|t| subst(f, t)).collect()),
        Abst(t) => abst(subst(&|n| if n == 0 { Var(0) } else { lift(&f(n - 1)) }, t)),
    }
}

pub fn lift(t: &Term) -> Term {
    subst(&|x| Var(x + 1), t)
}

pub fn beta(arg: &Term, t: &Term) -> Term {
    match t {
        Abst(b) => subst(&|k| if k == 0 { arg.clone() } else { Var(k - 1) }, b),
        _ => panic!("no beta-redex"),
    }
}

/// foldright beta: the last argument meets the outermost abstraction.
pub fn betas(t: Term, args: &[Term]) -> Term {
    args.iter().rev().fold(t, |t, arg| beta(arg, &t))
}

pub type Valuation<'a> = &'a dyn Fn((u32, usize)) -> Term;

pub fn metasubst(v: Valuation, t: &Term) -> Term {
    let all = |ts: &[Term]| -> Vec<Term> { ts.iter().map(|t| metasubst(v, t)).collect() };
    match t {
        Var(x) => Var(*x),
        Sym(s, ts) => Sym(*s, all(ts)),
        Meta(z, ts) => betas(v((*z, ts.len())), &all(ts)),
        Abst(t) => abst(metasubst(&|z| lift(&v(z)), t)),
    }
}

pub fn freevars(t: &Term) -> Vec<i64> {
    fn fv(n: i64, t: &Term) -> Vec<i64> {
        match t {
            Var(k) if *k < n => vec![],
            Var(k) => vec![k - n],
            Sym(_, ts) | Meta(_, ts) => ts.iter().flat_map(|t| fv(n, t)).collect(),
            Abst(t) => fv(n + 1, t),
        }
    }
    fv(0, t)
}

pub fn metas(t: &Term) -> Vec<(u32, usize)> {
    match t {
        Var(_) => vec![],
        Sym(_, ts) => ts.iter().flat_map(metas).collect(),
        Meta(z, ts) => {
            let mut all = vec![(*z, ts.len())];
            all.extend(ts.iter().flat_map(metas));
            all
        }
        Abst(t) => metas(t),
    }
}

pub fn simple(t: &Term) -> bool {
    match t {
        Var(_) => true,
        Sym(_, ts) => ts.iter().all(simple),
        Meta(_, ts) => {
            let fvs: Vec<i64> = ts.iter().flat_map(freevars).collect();
            ts.iter().all(|t| matches!(t, Var(_)))
                && (0..fvs.len()).all(|i| !fvs[i + 1..].contains(&fvs[i]))
        }
        Abst(t) => simple(t),
    }
}

pub fn crs_rule(left: &Term, right: &Term) -> bool {
    let of_left = metas(left);
    metas(right).iter().all(|m| of_left.contains(m))
        && matches!(left, Sym(..))
        && freevars(left).is_empty()
        && freevars(right).is_empty()
        && simple(left)
}

pub fn size(t: &Term) -> usize {
    match t {
        Var(_) => 1,
        Sym(_, ts) | Meta(_, ts) => 1 + ts.iter().map(size).sum::<usize>(),
        Abst(t) => 1 + size(t),
    }
}

pub fn depth(t: &Term) -> usize {
    match t {
        Var(_) => 1,
        Sym(_, ts) | Meta(_, ts) => 1 + ts.iter().map(depth).max().unwrap_or(0),
        Abst(t) => 1 + depth(t),
    }
}

pub fn highest_index(t: &Term) -> i64 {
    match t {
        Var(x) => *x,
        Sym(_, ts) | Meta(_, ts) => ts.iter().map(highest_index).max().unwrap_or(-1),
        Abst(t) => highest_index(t),
    }
}

/// 01's table of a term.
pub fn encode(t: &Term) -> Vec<u32> {
    match t {
        Var(x) => vec![u32::try_from(*x).expect("no index is negative"), 0],
        Sym(s, ts) => node(1, *s, ts),
        Meta(z, ts) => node(2, *z, ts),
        Abst(t) => node(3, 0, std::slice::from_ref(t)),
    }
}

fn node(kind: u32, name: u32, ts: &[Term]) -> Vec<u32> {
    let mut words = vec![kind * 65_536 + name, ts.len() as u32];
    words.extend(ts.iter().flat_map(encode));
    words
}

/// The term at the front of some words, and the words after it.
fn decode_front(words: &[u32]) -> Option<(Term, &[u32])> {
    let [first, count, rest @ ..] = words else { return None };
    let (kind, name, count) = (first / 65_536, first % 65_536, *count as usize);
    let lawful = match kind {
        0 => count == 0,
        1 | 2 => count <= 8,
        3 => name == 0 && count == 1,
        _ => false,
    };
    if !lawful {
        return None;
    }
    let mut rest = rest;
    let mut ts = Vec::new();
    for _ in 0..count {
        let (t, after) = decode_front(rest)?;
        ts.push(t);
        rest = after;
    }
    let t = match kind {
        0 => Var(i64::from(name)),
        1 => Sym(name, ts),
        2 => Meta(name, ts),
        _ => abst(ts.remove(0)),
    };
    Some((t, rest))
}

/// The term of a good table.
pub fn decode(words: &[u32]) -> Option<Term> {
    decode_front(words).filter(|(_, rest)| rest.is_empty()).map(|(t, _)| t)
}

/// 2, 1, 3, or the term.
pub fn accept(words: &[u32], nodes: usize) -> Result<Term, u32> {
    if words.len() > 2 * nodes {
        return Err(2);
    }
    let t = decode(words).ok_or(1u32)?;
    if depth(&t) > 64 {
        return Err(3);
    }
    Ok(t)
}

/// An accepted subject, or 2, 1, 3, 4.
pub fn accept_subject(words: &[u32]) -> Result<Term, u32> {
    let t = accept(words, 4_096)?;
    if !metas(&t).is_empty() {
        return Err(4);
    }
    Ok(t)
}

/// An accepted rule, or the refusals of compile but 10.
pub fn accept_rule(left: &[u32], right: &[u32]) -> Result<(Term, Term), u32> {
    let l = accept(left, 256)?;
    let r = accept(right, 256)?;
    if !matches!(l, Sym(..)) {
        return Err(5);
    }
    if !freevars(&l).is_empty() || !freevars(&r).is_empty() {
        return Err(6);
    }
    if !simple(&l) {
        return Err(7);
    }
    if !metas(&r).iter().all(|m| metas(&l).contains(m)) {
        return Err(8);
    }
    assert!(crs_rule(&l, &r));
    let mut all = metas(&l);
    all.sort();
    all.dedup();
    if all.len() > 16 {
        return Err(9);
    }
    Ok((l, r))
}
