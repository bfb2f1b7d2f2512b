//! 01 'When code passes', over a decoded instruction tree.

use super::machine::Instruction::{self, *};

/// The instructions of some words, whole ones only.
pub fn decode(words: &[u32]) -> Option<Vec<Instruction>> {
    let mut all = Vec::new();
    let mut rest = words;
    while !rest.is_empty() {
        let (c, after) = decode_one(rest)?;
        all.push(c);
        rest = after;
    }
    Some(all)
}

fn split(words: &[u32], n: u32) -> Option<(&[u32], &[u32])> {
    let n = n as usize;
    (n <= words.len()).then(|| words.split_at(n))
}

fn decode_one(words: &[u32]) -> Option<(Instruction, &[u32])> {
    let signed = |w: &u32| i64::from(*w);
    Some(match words {
        [0, s, n, rest @ ..] => (Is(*s, *n as usize), rest),
        [1, rest @ ..] => (IsAbst, rest),
        [2, rest @ ..] => (Next, rest),
        [3, c, rest @ ..] => {
            let (list, rest) = split(rest, *c)?;
            (Check(list.iter().map(signed).collect()), rest)
        }
        [4, rest @ ..] => (Set, rest),
        [5, x, rest @ ..] => (EqVar(signed(x)), rest),
        [6, n, rest @ ..] => (EqImm(*n as usize), rest),
        [7, n, d, c, rest @ ..] => {
            let (list, rest) = split(rest, c.checked_mul(2)?)?;
            let pairs = list.chunks(2).map(|p| (signed(&p[0]), signed(&p[1]))).collect();
            (EqI(*n as usize, signed(d) - 64, pairs), rest)
        }
        [8, s, n, rest @ ..] => (Cell(*s, *n as usize), rest),
        [9, rest @ ..] => (Lambda, rest),
        [10, rest @ ..] => (Adbmal, rest),
        [11, x, rest @ ..] => (PushVar(signed(x)), rest),
        [12, n, rest @ ..] => (PushImm(*n as usize), rest),
        [13, n, d, c, rest @ ..] => {
            let mut rest = rest;
            let mut acs = Vec::new();
            for _ in 0..*c {
                let [key, length, after @ ..] = rest else { return None };
                let (body, after) = split(after, *length)?;
                acs.push((signed(key), decode(body)?));
                rest = after;
            }
            (PushI(*n as usize, signed(d) - 64, acs), rest)
        }
        _ => return None,
    })
}

/// An entry of the check: its depth b and its guard.
type Entry = (i64, Vec<i64>);

/// The instructions of code that passes.
pub fn passes(words: &[u32]) -> Option<Vec<Instruction>> {
    if words.is_empty() || words.len() > 4_096 {
        return None;
    }
    let tree = decode(words)?;
    let first_build = tree.iter().position(|c| !c.matches())?;
    let (matching, building) = tree.split_at(first_build);
    let entries = match_part(matching)?;
    let whole = Site { l: 0, nest: 0, in_body: false };
    makes_one(building, whole, &entries).then_some(tree)
}

fn named(name: u32, count: usize) -> bool {
    name <= 65_535 && count <= 8
}

/// Every index below b is listed or guarded.
fn covered((b, guard): &Entry, listed: &[i64]) -> bool {
    listed.iter().all(|i| i < b) && (0..*b).all(|i| guard.contains(&i) || listed.contains(&i))
}

/// The entry counted from the newest.
fn entry(entries: &[Entry], n: usize) -> Option<&Entry> {
    entries.iter().rev().nth(n)
}

/// The entries made, the newest last, if the match part obeys its rules.
fn match_part(cs: &[Instruction]) -> Option<Vec<Entry>> {
    let mut depths: Vec<i64> = vec![0];
    let mut entries: Vec<Entry> = Vec::new();
    for (at, c) in cs.iter().enumerate() {
        let top = *depths.last()?;
        if !may_stand(c, top, &entries) {
            return None;
        }
        match c {
            Is(_, n) => {
                depths.pop();
                depths.extend(vec![top; *n]);
            }
            IsAbst => *depths.last_mut()? += 1,
            Next => depths.truncate(depths.len() - 1),
            Set => {
                let before = at.checked_sub(1).map(|before| &cs[before]);
                let guard = if let Some(Check(vs)) = before { vs.clone() } else { vec![] };
                entries.push((top, guard));
            }
            _ => {}
        }
        let deepest = depths.iter().max().copied().unwrap_or(0);
        if depths.len() > 256 || entries.len() > 16 || deepest > 63 {
            return None;
        }
    }
    depths.is_empty().then_some(entries)
}

/// Whether a match instruction may stand where the top has this depth.
fn may_stand(c: &Instruction, top: i64, entries: &[Entry]) -> bool {
    match c {
        Is(s, n) => named(*s, *n),
        Check(vs) => vs.len() <= 63 && vs.iter().all(|v| *v < top),
        EqVar(x) => *x < top,
        EqImm(n) => entry(entries, *n).is_some_and(|e| e.0 == top),
        EqI(n, d, vvs) => entry(entries, *n).is_some_and(|e| {
            let firsts: Vec<i64> = vvs.iter().map(|p| p.0).collect();
            let seconds = vvs.iter().all(|p| p.1 < top);
            *d == top - e.0 && vvs.len() <= 8 && covered(e, &firsts) && seconds
        }),
        _ => true,
    }
}

/// Where instructions stand: open LAMBDAs, blocks and bodies.
#[derive(Clone, Copy)]
struct Site {
    l: i64,
    nest: usize,
    in_body: bool,
}

/// Whether a body, or the whole build part, obeys the rules and makes one term.
fn makes_one(cs: &[Instruction], site: Site, entries: &[Entry]) -> bool {
    // The terms of each open block, the innermost last.
    let mut blocks: Vec<usize> = vec![0];
    for c in cs {
        let l = site.l + blocks.len() as i64 - 1;
        let nest = site.nest + blocks.len() - 1;
        let Some(taken) = taken(c, Site { l, nest, ..site }, entries) else { return false };
        match c {
            Lambda => blocks.push(0),
            Adbmal => {
                if blocks.len() < 2 || blocks.pop() != Some(1) {
                    return false;
                }
                *blocks.last_mut().unwrap() += 1;
            }
            _ => {
                let own = blocks.last_mut().unwrap();
                if *own < taken {
                    return false;
                }
                *own = *own - taken + 1;
            }
        }
    }
    blocks == [1]
}

/// How many terms an instruction takes, if it may stand here.
fn taken(c: &Instruction, site: Site, entries: &[Entry]) -> Option<usize> {
    let fine = match c {
        Cell(s, n) => return named(*s, *n).then_some(*n),
        Lambda => site.l < 63 && site.nest < 64,
        Adbmal => true,
        PushVar(x) => *x < site.l,
        PushImm(n) => !site.in_body && entry(entries, *n)?.0 == site.l,
        PushI(n, d, acs) => {
            let e = entry(entries, *n)?;
            let keys: Vec<i64> = acs.iter().map(|a| a.0).collect();
            let inside = Site { nest: site.nest + 1, in_body: true, ..site };
            *d == site.l - e.0
                && acs.len() <= 8
                && covered(e, &keys)
                && (acs.is_empty() || inside.nest <= 64)
                && acs.iter().all(|(_, body)| makes_one(body, inside, entries))
        }
        _ => false,
    };
    fine.then_some(0)
}
