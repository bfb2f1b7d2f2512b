//! `reed_read` and the second implementation's `read` on the same files and lent tables: the same
//! number and counts, the same words, and guards and file left alone.

use linked::compare::{compare, share_of, Kind};
use linked::numbers::{BAD_FILE, DONE};
use linked::read::Read;
use second::limits::{FILE_SIDE_WORDS, FILE_SUBJECT_WORDS, FILE_VERSION, FILE_WORD_BYTES};
use second::seed::{damaged_file, edge_file, file_of, good_rule, random_subject, Rng};
#[cfg(target_arch = "x86_64")]
use second::ReadAnswer;

const LIMITS: [usize; 3] = [FILE_SIDE_WORDS, FILE_SIDE_WORDS, FILE_SUBJECT_WORDS];

#[test]
fn reed_read_does_what_the_second_implementation_does() {
    let tally = compare(&KINDS);
    print!("reed_read: {tally}");
    assert!(tally.calls() >= share_of(100_000));
    // Last, since it ends the test if the reader writes what it must not.
    #[cfg(target_arch = "x86_64")]
    reads_empty_slices();
}

/// An empty slice's pointer need not point to memory.
#[cfg(target_arch = "x86_64")]
fn reads_empty_slices() {
    let smallest = file(&Tables::default());
    for (file, number) in [(&[][..], BAD_FILE), (&smallest, DONE)] {
        let answer = linked::engine::linked::read(file, &mut [], &mut [], &mut []);
        assert_eq!(answer, ReadAnswer { number, left: 0, right: 0, subject: 0 });
    }
}

/// First come the slips that, unseen, would spoil the test's own memory later.
const KINDS: [Kind<Read>; 20] = [
    Kind::new("table lent one word short", &[BAD_FILE], 10_000, lent_one_short),
    Kind::new("table lent one word short of a limit", &[BAD_FILE], 60, lent_short_of_limit),
    Kind::new("no tables lent, none in the file", &[DONE], 100, smallest),
    Kind::new("tables lent with the words exactly", &[DONE], 10_000, lent_exactly),
    Kind::new("tables lent with room", &[DONE], 10_000, lent_with_room),
    Kind::new("tables lent at any length", &[DONE, BAD_FILE], 10_000, lent_at_any_length),
    Kind::new("words of any value", &[DONE], 10_000, any_words),
    Kind::new("a count at its limit", &[DONE], 150, at_limit),
    Kind::new("a count over its limit, with room", &[BAD_FILE], 150, over_limit),
    Kind::new("the longest file", &[DONE], 20, longest),
    Kind::new("the longest file, cut or lengthened", &[BAD_FILE], 20, longest_damaged),
    Kind::new("a count far too high", &[BAD_FILE], 1_000, count_far_too_high),
    Kind::new("every cut", &[BAD_FILE], 250, every_cut),
    Kind::new("every byte changed", &[DONE, BAD_FILE], 250, every_byte_changed),
    Kind::new("every other version", &[BAD_FILE], 40, every_other_version),
    Kind::new("bytes after the end", &[BAD_FILE], 10_000, bytes_after),
    Kind::new("little-endian", &[BAD_FILE], 10_000, little_endian),
    Kind::new("damaged", &[DONE, BAD_FILE], 30_000, damaged),
    Kind::new("noise", &[BAD_FILE], 10_000, noise),
    Kind::new("mostly zeros", &[DONE, BAD_FILE], 20_000, mostly_zeros),
];

/// The tables of a file.
type Tables = [Vec<u32>; 3];

fn file(tables: &Tables) -> Vec<u8> {
    file_of(&tables[0], &tables[1], &tables[2])
}

fn lengths(tables: &Tables) -> [usize; 3] {
    [tables[0].len(), tables[1].len(), tables[2].len()]
}

/// An accepted rule and subject.
fn accepted(rng: &mut Rng) -> Tables {
    let rule = good_rule(rng);
    [rule.left, rule.right, random_subject(rng)]
}

/// Tables of these lengths, with words of any value.
fn words(rng: &mut Rng, lengths: [usize; 3]) -> Tables {
    lengths.map(|length| (0..length).map(|_| rng.bits() as u32).collect())
}

/// Short tables, empty ones too, with words of any value.
fn short(rng: &mut Rng) -> Tables {
    let lengths = [rng.below(9), rng.below(9), rng.below(9)];
    words(rng, lengths)
}

fn any(rng: &mut Rng) -> Tables {
    if rng.percent(50) {
        accepted(rng)
    } else {
        short(rng)
    }
}

/// Lengths that hold these, some with a word or more of room.
fn room(rng: &mut Rng, lengths: [usize; 3]) -> [usize; 3] {
    lengths.map(|length| length + *rng.pick(&[0, 1, 2, 40]))
}

/// One call on a file of these tables, lent with room.
fn one(rng: &mut Rng, tables: &Tables, file: &[u8]) -> Vec<Read> {
    let lent = room(rng, lengths(tables));
    vec![Read::new(rng, file, lent)]
}

fn lent_exactly(rng: &mut Rng) -> Vec<Read> {
    let tables = accepted(rng);
    vec![Read::new(rng, &file(&tables), lengths(&tables))]
}

fn lent_with_room(rng: &mut Rng) -> Vec<Read> {
    let tables = accepted(rng);
    one(rng, &tables, &file(&tables))
}

/// Each table in turn is one word short, the others are not.
fn lent_one_short(rng: &mut Rng) -> Vec<Read> {
    let tables = accepted(rng);
    let short = |table: usize| {
        let mut lent = room(rng, lengths(&tables));
        lent[table] = tables[table].len() - 1;
        Read::new(rng, &file(&tables), lent)
    };
    (0..3).map(short).collect()
}

fn lent_at_any_length(rng: &mut Rng) -> Vec<Read> {
    let tables = any(rng);
    let lent = lengths(&tables).map(|length| {
        let many = if rng.percent(5) { 9_000 } else { 300 };
        let few = rng.below(length + 3);
        *rng.pick(&[0, 1, few, length, length, length, length + 1, many])
    });
    vec![Read::new(rng, &file(&tables), lent)]
}

fn smallest(rng: &mut Rng) -> Vec<Read> {
    vec![Read::new(rng, &file(&Tables::default()), [0; 3])]
}

fn any_words(rng: &mut Rng) -> Vec<Read> {
    let tables = short(rng);
    one(rng, &tables, &file(&tables))
}

/// Each table in turn has a count at its limit or one over it, and is lent as many words as `lent`
/// says of the limit.
fn edges(rng: &mut Rng, over: bool, lent: fn(&mut Rng, usize) -> usize) -> Vec<Read> {
    let edge = |table| {
        let file = edge_file(rng, table, over);
        let mut lengths = [4; 3];
        lengths[table] = lent(rng, LIMITS[table]);
        Read::new(rng, &file, lengths)
    };
    (0..3).map(edge).collect()
}

fn at_limit(rng: &mut Rng) -> Vec<Read> {
    edges(rng, false, |rng, limit| limit + rng.below(3))
}

fn lent_short_of_limit(rng: &mut Rng) -> Vec<Read> {
    edges(rng, false, |_, limit| limit - 1)
}

/// Only the limit is in the way.
fn over_limit(rng: &mut Rng) -> Vec<Read> {
    edges(rng, true, |rng, limit| limit + 1 + rng.below(3))
}

fn longest(rng: &mut Rng) -> Vec<Read> {
    let tables = words(rng, LIMITS);
    one(rng, &tables, &file(&tables))
}

fn longest_damaged(rng: &mut Rng) -> Vec<Read> {
    let tables = words(rng, LIMITS);
    let mut longer = file(&tables);
    longer.push(0);
    let shorter = &longer[..longer.len() - 2];
    [one(rng, &tables, shorter), one(rng, &tables, &longer)].concat()
}

/// Counts that a reader would take for the right one if it looked at their low bytes alone or
/// lost the high bits of four times it; and the highest.
fn counts_far_too_high(right: u32) -> [u32; 7] {
    let more = [1 << 16, 1 << 24, 1 << 30, 1 << 31, 3 << 30];
    let [a, b, c, d, e] = more.map(|more: u32| right + more);
    [a, b, c, d, e, u32::MAX, u32::MAX - right]
}

/// Each table in turn has such a count.
fn count_far_too_high(rng: &mut Rng) -> Vec<Read> {
    let tables = short(rng);
    let good = file(&tables);
    let mut calls = Vec::new();
    let mut place = 1;
    for table in &tables {
        for count in counts_far_too_high(table.len() as u32) {
            let mut file = good.clone();
            file[place..][..FILE_WORD_BYTES].copy_from_slice(&count.to_be_bytes());
            calls.extend(one(rng, &tables, &file));
        }
        place += FILE_WORD_BYTES * (1 + table.len());
    }
    calls
}

/// The empty file too.
fn every_cut(rng: &mut Rng) -> Vec<Read> {
    let tables = any(rng);
    let file = file(&tables);
    (0..file.len()).flat_map(|end| one(rng, &tables, &file[..end])).collect()
}

fn every_byte_changed(rng: &mut Rng) -> Vec<Read> {
    let tables = any(rng);
    let good = file(&tables);
    let change = |place: usize| {
        let mut file = good.clone();
        file[place] ^= rng.between(1, 255) as u8;
        one(rng, &tables, &file)
    };
    (0..good.len()).flat_map(change).collect()
}

fn every_other_version(rng: &mut Rng) -> Vec<Read> {
    let tables = short(rng);
    let mut file = file(&tables);
    let others = (0..=u8::MAX).filter(|version| *version != FILE_VERSION);
    let change = |version| {
        file[0] = version;
        one(rng, &tables, &file)
    };
    others.flat_map(change).collect()
}

fn bytes_after(rng: &mut Rng) -> Vec<Read> {
    let tables = any(rng);
    let mut file = file(&tables);
    let byte = if rng.percent(50) { 0 } else { rng.below(256) as u8 };
    file.extend(vec![byte; rng.between(1, 9)]);
    one(rng, &tables, &file)
}

/// A file as a machine with the low byte first would write it; no table is empty.
fn little_endian(rng: &mut Rng) -> Vec<Read> {
    let tables = accepted(rng);
    let mut file = file(&tables);
    file[1..].chunks_exact_mut(FILE_WORD_BYTES).for_each(<[u8]>::reverse);
    one(rng, &tables, &file)
}

fn damaged(rng: &mut Rng) -> Vec<Read> {
    let tables = any(rng);
    let file = damaged_file(rng, &file(&tables));
    one(rng, &tables, &file)
}

/// Any bytes after a good version or any.
fn noise(rng: &mut Rng) -> Vec<Read> {
    let most = *rng.pick(&[14, 60, 400]);
    let length = rng.below(most);
    let mut file: Vec<u8> = (0..length).map(|_| rng.bits() as u8).collect();
    if let Some(version) = file.first_mut().filter(|_| rng.percent(80)) {
        *version = FILE_VERSION;
    }
    one(rng, &Tables::default(), &file)
}

/// Bytes that are counts of 0 and 1 more often than not, so that some are a file.
fn mostly_zeros(rng: &mut Rng) -> Vec<Read> {
    let length = 13 + rng.below(9);
    let mut file = vec![0; length];
    file[0] = FILE_VERSION;
    for _ in 0..rng.below(3) {
        let place = rng.below(length);
        file[place] = rng.below(3) as u8;
    }
    one(rng, &Tables::default(), &file)
}
