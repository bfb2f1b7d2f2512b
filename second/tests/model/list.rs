//! 02, request 1, in the plainest way: after each rewrite the search begins at
//! the root again, every rule is asked at every node, and a new term is made.

use super::machine::{run, Instruction, Stop};
use super::passing::passes;
use super::terms::{abst, accept_subject, depth, highest_index, size, Term};

/// The plan, the rewrites made and whether no rule matches any more, or the
/// number of a refusal; the two lent tables are known by their lengths.
pub fn list_run(
    table: &[u32],
    subject: &[u32],
    rewrites: u32,
    [work, result]: [usize; 2],
) -> Result<(Term, u32, bool), u32> {
    let rules = split(table);
    if rules.len() > 32 || rewrites > 1_000 {
        return Err(37);
    }
    if work < 16_384 {
        return Err(16);
    }
    let rules: Option<Vec<Vec<Instruction>>> =
        rules.iter().map(|code| code.and_then(passes)).collect();
    let rules = rules.ok_or(11u32)?;
    let mut plan = accept_subject(subject)?;
    let most = 4_096.min(result / 2);
    let mut made = 0;
    loop {
        // 13, 14 and 15 are read over each whole plan of the sequence.
        if size(&plan) > most {
            return Err(13);
        }
        if depth(&plan) > 64 {
            return Err(14);
        }
        if highest_index(&plan) > 65_535 {
            return Err(15);
        }
        match next(&plan, &rules) {
            None => return Ok((plan, made, true)),
            Some(_) if made == rewrites => return Ok((plan, made, false)),
            Some(Err(number)) => return Err(number),
            Some(Ok(new)) => plan = new,
        }
        made += 1;
    }
}

/// The rules of a table; none stands for one that is cut.
fn split(table: &[u32]) -> Vec<Option<&[u32]>> {
    let mut rules = Vec::new();
    let mut rest = table;
    while let [words, behind @ ..] = rest {
        let words = *words as usize;
        if words > behind.len() {
            rules.push(None);
            break;
        }
        rules.push(Some(&behind[..words]));
        rest = &behind[words..];
    }
    rules
}

/// The plan after one rewrite at the first node where a rule matches, by the
/// first one there; 13 if that makes more nodes than the model cares to.
fn next(plan: &Term, rules: &[Vec<Instruction>]) -> Option<Result<Term, u32>> {
    for rule in rules {
        match run(plan, rule) {
            Ok(made) => return Some(Ok(made)),
            Err(Stop::TooLarge) => return Some(Err(13)),
            Err(Stop::Failure) => {}
        }
    }
    match plan {
        Term::Var(_) | Term::Meta(..) => None,
        Term::Abst(body) => next(body, rules).map(|new| new.map(abst)),
        Term::Sym(name, arguments) => {
            let first = |place: usize| Some((place, next(&arguments[place], rules)?));
            let (place, new) = (0..arguments.len()).find_map(first)?;
            Some(new.map(|new| {
                let mut arguments = arguments.clone();
                arguments[place] = new;
                Term::Sym(*name, arguments)
            }))
        }
    }
}
