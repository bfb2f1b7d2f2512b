//! 004 sections 5 and 6: symbol table and code generation; 01's code words.

use super::machine::Instruction::{self, *};
use super::terms::Term::{self, *};

#[derive(Clone)]
pub struct Entry {
    pub mv: (u32, usize),
    pub bv: i64,
    pub loc: i64,
    pub arg: Vec<i64>,
}

pub fn unvar(ts: &[Term]) -> Vec<i64> {
    let of = |t: &Term| if let Var(x) = t { *x } else { panic!("lhs not simple") };
    ts.iter().map(of).collect()
}

fn update(n: i64, tab: Vec<Entry>, t: &Term) -> Vec<Entry> {
    match t {
        Var(_) => tab,
        Sym(_, ts) => ts.iter().fold(tab, |tab, t| update(n, tab, t)),
        Abst(t) => update(n + 1, tab, t),
        Meta(z, ts) => {
            let mut tab = tab;
            let mv = (*z, ts.len());
            if !tab.iter().any(|e| e.mv == mv) {
                tab.push(Entry { mv, bv: n, loc: 0, arg: unvar(ts) });
            }
            ts.iter().fold(tab, |tab, t| update(n, tab, t))
        }
    }
}

/// The table and the number of its entries.
pub fn create_table(l: &Term) -> (Vec<Entry>, i64) {
    let mut tab = update(0, Vec::new(), l);
    let mut no = 0;
    for e in tab.iter_mut().rev() {
        e.loc = no;
        no += 1;
    }
    (tab, no)
}

pub fn lookup(mv: (u32, usize), tab: &[Entry]) -> &Entry {
    tab.iter().find(|e| e.mv == mv).expect("internal error")
}

fn lhs(tab: &[Entry], n: i64, k: &mut i64, t: &Term) -> Vec<Instruction> {
    match t {
        Sym(s, ts) => {
            let mut cs = vec![Is(*s, ts.len())];
            ts.iter().for_each(|t| cs.extend(lhs(tab, n, k, t)));
            cs
        }
        Var(x) => vec![EqVar(*x), Next],
        Abst(t) => {
            let mut cs = vec![IsAbst];
            cs.extend(lhs(tab, n + 1, k, t));
            cs
        }
        Meta(z, ts) => {
            let e = lookup((*z, ts.len()), tab);
            if *k > e.loc {
                *k -= 1;
                let args = unvar(ts);
                let bvset = (0..n).filter(|i| !args.contains(i)).collect();
                return vec![Check(bvset), Set, Next];
            }
            let pairs = e.arg.iter().copied().zip(unvar(ts)).collect();
            vec![EqI((e.loc - *k) as usize, n - e.bv, pairs), Next]
        }
    }
}

fn rhs(tab: &[Entry], n: i64, t: &Term) -> Vec<Instruction> {
    match t {
        Sym(s, ts) => {
            let mut cs: Vec<_> = ts.iter().flat_map(|t| rhs(tab, n, t)).collect();
            cs.push(Cell(*s, ts.len()));
            cs
        }
        Var(x) => vec![PushVar(*x)],
        Abst(t) => {
            let mut cs = vec![Lambda];
            cs.extend(rhs(tab, n + 1, t));
            cs.push(Adbmal);
            cs
        }
        Meta(z, ts) => {
            let e = lookup((*z, ts.len()), tab);
            let bodies = ts.iter().map(|t| rhs(tab, n, t));
            vec![PushI(e.loc as usize, n - e.bv, e.arg.iter().copied().zip(bodies).collect())]
        }
    }
}

pub fn compile(l: &Term, r: &Term) -> Vec<Instruction> {
    let (tab, mut rn) = create_table(l);
    let mut cs = lhs(&tab, 0, &mut rn, l);
    cs.extend(rhs(&tab, 0, r));
    cs
}

/// 01's code words.
pub fn encode(cs: &[Instruction]) -> Vec<u32> {
    cs.iter().flat_map(encode_one).collect()
}

fn encode_one(c: &Instruction) -> Vec<u32> {
    match c {
        Is(s, n) => vec![0, *s, *n as u32],
        IsAbst => vec![1],
        Next => vec![2],
        Check(vs) => {
            let mut words = vec![3, vs.len() as u32];
            words.extend(vs.iter().map(|v| *v as u32));
            words
        }
        Set => vec![4],
        EqVar(x) => vec![5, *x as u32],
        EqImm(n) => vec![6, *n as u32],
        EqI(n, d, vvs) => {
            let mut words = vec![7, *n as u32, (d + 64) as u32, vvs.len() as u32];
            words.extend(vvs.iter().flat_map(|(x, y)| [*x as u32, *y as u32]));
            words
        }
        Cell(s, n) => vec![8, *s, *n as u32],
        Lambda => vec![9],
        Adbmal => vec![10],
        PushVar(x) => vec![11, *x as u32],
        PushImm(n) => vec![12, *n as u32],
        PushI(n, d, acs) => {
            let mut words = vec![13, *n as u32, (d + 64) as u32, acs.len() as u32];
            for (key, body) in acs {
                let body = encode(body);
                words.extend([*key as u32, body.len() as u32]);
                words.extend(body);
            }
            words
        }
    }
}
