//! Bytes: the file reader.

use crate::limits::{FILE_SIDE_WORDS, FILE_SUBJECT_WORDS, FILE_VERSION, FILE_WORD_BYTES};
use crate::refusals::{Refusal, DONE};

/// What the reader gives back; on refusal the three counts are 0.
#[derive(Clone, Copy, Debug, PartialEq, Eq)]
pub struct ReadAnswer {
    pub number: u32,
    pub left: u32,
    pub right: u32,
    pub subject: u32,
}

/// Reads a file: the words of its three tables at the front of the lent ones,
/// or 17 and no word changed.
pub fn read(file: &[u8], left: &mut [u32], right: &mut [u32], subject: &mut [u32]) -> ReadAnswer {
    let most = [
        FILE_SIDE_WORDS.min(left.len()),
        FILE_SIDE_WORDS.min(right.len()),
        FILE_SUBJECT_WORDS.min(subject.len()),
    ];
    match tables(file, most) {
        Ok([left_bytes, right_bytes, subject_bytes]) => ReadAnswer {
            number: DONE,
            left: put(left_bytes, left),
            right: put(right_bytes, right),
            subject: put(subject_bytes, subject),
        },
        Err(refusal) => ReadAnswer { number: refusal.number(), left: 0, right: 0, subject: 0 },
    }
}

/// The bytes of the three tables, each of at most so many words.
fn tables(file: &[u8], [left, right, subject]: [usize; 3]) -> Result<[&[u8]; 3], Refusal> {
    let Some((&FILE_VERSION, rest)) = file.split_first() else { return Err(Refusal::BadFile) };
    let (left, rest) = table(rest, left)?;
    let (right, rest) = table(rest, right)?;
    let (subject, rest) = table(rest, subject)?;
    if !rest.is_empty() {
        return Err(Refusal::BadFile);
    }
    Ok([left, right, subject])
}

/// A table's bytes and the bytes after it.
fn table(file: &[u8], most_words: usize) -> Result<(&[u8], &[u8]), Refusal> {
    let (count, rest) = file.split_first_chunk().ok_or(Refusal::BadFile)?;
    let words = u32::from_be_bytes(*count) as usize;
    if words > most_words {
        return Err(Refusal::BadFile);
    }
    rest.split_at_checked(FILE_WORD_BYTES * words).ok_or(Refusal::BadFile)
}

/// Writes the words at the front of a lent table and counts them.
fn put(bytes: &[u8], table: &mut [u32]) -> u32 {
    let words = bytes.chunks_exact(FILE_WORD_BYTES);
    let count = words.len();
    for (place, word) in table.iter_mut().zip(words) {
        *place = u32::from_be_bytes([word[0], word[1], word[2], word[3]]);
    }
    count as u32
}
