//! Files to read.

use std::hint::black_box;

use linked::numbers::{BAD_FILE, DONE};
use second::limits::{FILE_SIDE_WORDS, FILE_SUBJECT_WORDS, FILE_WORD_BYTES};
use second::seed::file_of;

use crate::{proved, Case, Side};

/// A file, the number that it is read with, and tables for it.
pub struct File {
    file: Vec<u8>,
    number: u32,
    tables: Tables,
}

struct Tables {
    left: Vec<u32>,
    right: Vec<u32>,
    subject: Vec<u32>,
}

impl Case for File {
    fn named(name: &str) -> File {
        let mut file = whole(name);
        if name == "refused" {
            file.pop();
        }
        let number = if name == "refused" { BAD_FILE } else { DONE };
        File { file, number, tables: Tables::largest() }
    }

    fn size(&self) -> usize {
        let without_words = file_of(&[], &[], &[]).len();
        (self.file.len() - without_words).div_ceil(FILE_WORD_BYTES)
    }

    #[inline(always)]
    fn make(&mut self, side: Side) {
        let file = black_box(&self.file[..]);
        let Tables { left, right, subject } = black_box(&mut self.tables);
        let answer = match side {
            Side::Proved => proved::read(file, left, right, subject),
            Side::Second => second::read(file, left, right, subject),
        };
        assert_eq!(black_box(answer).number, self.number);
    }
}

/// The file, or the one that it is cut from.
fn whole(name: &str) -> Vec<u8> {
    let side: Vec<u32> = (0..FILE_SIDE_WORDS as u32).collect();
    let subject: Vec<u32> = (0..FILE_SUBJECT_WORDS as u32).collect();
    match name {
        "smallest" => file_of(&[], &[], &[]),
        "three" => file_of(&side[..1], &side[..1], &subject[..1]),
        "beta" => include_bytes!("../../examples/beta.rule").to_vec(),
        "odd" => file_of(&side[1..], &side[3..], &subject[1..]),
        "largest" | "refused" => file_of(&side, &side, &subject),
        _ => panic!("no such file: {name}"),
    }
}

impl Tables {
    fn largest() -> Tables {
        let side = vec![0; FILE_SIDE_WORDS];
        Tables { left: side.clone(), right: side, subject: vec![0; FILE_SUBJECT_WORDS] }
    }
}
