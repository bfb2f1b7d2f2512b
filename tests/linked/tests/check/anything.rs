//! Words of which nobody says beforehand whether they pass.

use linked::code::*;
use second::seed::Rng;

/// Words of any value, the first one an opcode or not.
pub fn noise(rng: &mut Rng) -> Vec<u32> {
    let most = *rng.pick(&[3, 10, 60]);
    let mut words: Vec<u32> = (0..rng.between(1, most)).map(|_| rng.bits() as u32).collect();
    if rng.percent(50) {
        words[0] = small(rng);
    }
    words
}

/// Words that each can be an opcode, or just not.
pub fn small_words(rng: &mut Rng) -> Vec<u32> {
    let words = rng.between(1, 8);
    let mut code: Vec<u32> = (0..words).map(|_| small(rng)).collect();
    if rng.percent(60) {
        code.splice(0..0, [NEXT, CELL]);
    }
    code
}

fn small(rng: &mut Rng) -> u32 {
    rng.below(15) as u32
}

/// Whole instructions with small operands, mostly match instructions while a term is current.
pub fn instructions(rng: &mut Rng) -> Vec<u32> {
    const ENOUGH: usize = 10;
    let (mut code, mut current) = (Vec::new(), 1);
    for _ in 0..ENOUGH {
        if current == 0 {
            break;
        }
        let op = *rng.pick(&[IS, ISABST, ISABST, NEXT, NEXT, CHECK, SET, SET, EQVAR, EQIMM, EQI]);
        code.extend(instruction(rng, op));
        current = match op {
            IS => current - 1 + code[code.len() - 1],
            NEXT => current - 1,
            _ => current,
        };
    }
    for _ in 0..rng.between(1, 5) {
        let op = *rng.pick(&[CELL, CELL, LAMBDA, ADBMAL, PUSHVAR, PUSHIMM, PUSHI]);
        code.extend(instruction(rng, op));
    }
    code
}

/// An instruction that passes in some place.
fn instruction(rng: &mut Rng, op: u32) -> Vec<u32> {
    let one = |rng: &mut Rng| rng.below(2) as u32;
    match op {
        IS | CELL => vec![op, one(rng), rng.below(3) as u32],
        CHECK => check(&vec![0; rng.below(2)]),
        EQVAR | EQIMM | PUSHVAR | PUSHIMM => vec![op, one(rng)],
        EQI => eqi(one(rng), 63 + rng.below(3) as u32, &vec![[0, 0]; rng.below(2)]),
        PUSHI => {
            let body = (0, vec![CELL, 1, 0]);
            pushi(one(rng), 63 + rng.below(3) as u32, &vec![body; rng.below(2)])
        }
        _ => vec![op],
    }
}
