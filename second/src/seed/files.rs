//! Files: good ones, damaged ones, and counts at their limits.

use super::rng::Rng;
use crate::limits::{FILE_SIDE_WORDS, FILE_SUBJECT_WORDS, FILE_VERSION};

/// The file of three tables.
pub fn file_of(left: &[u32], right: &[u32], subject: &[u32]) -> Vec<u8> {
    let mut file = vec![FILE_VERSION];
    for table in [left, right, subject] {
        file.extend((table.len() as u32).to_be_bytes());
        file.extend(table.iter().flat_map(|word| word.to_be_bytes()));
    }
    file
}

/// A file with one byte changed, cut short or lengthened.
pub fn damaged_file(rng: &mut Rng, file: &[u8]) -> Vec<u8> {
    let mut damaged = file.to_vec();
    let place = rng.below(file.len());
    match rng.below(6) {
        0 => damaged.truncate(place),
        1 => damaged.push(rng.below(256) as u8),
        2 => damaged[0] = rng.below(256) as u8,
        3 => damaged.insert(place, 0),
        // The counts' bytes are met often.
        4 => damaged[place.min(4)] ^= 1 << rng.below(8),
        _ => damaged[place] ^= 1 << rng.below(8),
    }
    damaged
}

/// A file whose count for one table, 0 to 2, is at its limit; with `over` one past it.
pub fn edge_file(rng: &mut Rng, table: usize, over: bool) -> Vec<u8> {
    let mut lengths = [rng.below(4), rng.below(4), rng.below(4)];
    let limit = if table == 2 { FILE_SUBJECT_WORDS } else { FILE_SIDE_WORDS };
    lengths[table % 3] = limit + usize::from(over);
    let [left, right, subject] =
        lengths.map(|length| (0..length).map(|_| rng.bits() as u32).collect::<Vec<u32>>());
    file_of(&left, &right, &subject)
}
