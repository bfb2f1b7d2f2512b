//! Tables of rules: how many there are, and how they end.

use linked::list_run::table_of;
use second::seed::{damaged_code, Rng, Term};

use crate::cases::{begun, feeding, rule, x, Case};

/// So many rules, of which only the last may do something: it comes to be asked.
pub fn so_many(rng: &mut Rng, count: usize) -> Case {
    let mut case = feeding(rng);
    let idle = |number: usize| {
        let name = 100 + number as u32;
        rule(&Term::Sym(name, vec![x()]), &x())
    };
    case.codes.truncate(count);
    while case.codes.len() < count {
        let place = rng.below(case.codes.len() + 1);
        case.codes.insert(place, idle(rng.below(20)));
    }
    case
}

/// The table of these rules, cut somewhere in the last one; what was cut away stands behind.
pub fn last_cut(rng: &mut Rng, case: &Case) -> [Vec<u32>; 2] {
    let mut table = case.table();
    let last = case.codes.last().map_or(0, Vec::len);
    // At least its count is there, and of its words at least one is not.
    let behind = table.split_off(table.len() - rng.between(1, last));
    [table, behind]
}

/// The table cut at every place, so that it ends in a rule or between two.
pub fn every_cut(case: &Case) -> Vec<[Vec<u32>; 2]> {
    let table = case.table();
    (0..table.len()).map(|end| [table[..end].to_vec(), table[end..].to_vec()]).collect()
}

/// The last rule's count is too high: by one, or so high that a sum with it is low again.
pub fn high_count(rng: &mut Rng, case: &Case) -> Vec<u32> {
    let mut table = case.table();
    let last = case.codes.last().map_or(0, Vec::len);
    let place = table.len() - last - 1;
    let any = last as u32 + rng.between(1, 9_000) as u32;
    let counts = [last as u32 + 1, any, 1 << 30, (1 << 30) + last as u32, 1 << 31, u32::MAX];
    let whole = u32::MAX - place as u32;
    table[place] = *rng.pick(&[&counts[..], &[whole, whole.saturating_add(1)]].concat());
    table
}

/// One of the rules has no words.
pub fn no_words(rng: &mut Rng, case: &Case) -> Vec<u32> {
    let mut codes = case.codes.clone();
    let place = rng.below(codes.len() + 1);
    codes.insert(place, Vec::new());
    table_of(&codes)
}

/// One of the rules does not pass.
pub fn bad_rule(rng: &mut Rng, case: &Case) -> Vec<u32> {
    let mut codes = case.codes.clone();
    let place = rng.below(codes.len());
    codes[place] = loop {
        let damaged = damaged_code(rng, &codes[place]);
        if second::check(&damaged) != 0 {
            break damaged;
        }
    };
    table_of(&codes)
}

/// The longest code that may be, and one word more: 11.
pub fn long_rule(rng: &mut Rng, case: &Case, words: usize) -> Vec<u32> {
    let mut codes = case.codes.clone();
    // A rule of little, with CHECKs of nothing before it.
    let code = begun(rng, &rule(&Term::leaf(99), &Term::leaf(98)));
    let missing = words - code.len();
    let mut long = [3, 0].repeat(missing / 2);
    if missing % 2 == 1 {
        long.push(4);
    }
    long.extend(code);
    assert_eq!(long.len(), words);
    let place = rng.below(codes.len() + 1);
    codes.insert(place, long);
    table_of(&codes)
}
