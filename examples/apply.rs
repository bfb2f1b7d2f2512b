//! A rule file on standard input, one line on standard output, as plan_apply has it: what a Rust
//! program may start from.
//!
//!     bash program/staticlib.sh
//!     rustc --edition 2021 -L target/staticlib -l static=reedbiscuit examples/apply.rs
//!     ./apply < examples/beta.rule

use std::io::{self, Read};

use reedbiscuit::{CODE_WORDS, FILE_BYTES, FILE_SIDE_WORDS, FILE_SUBJECT_WORDS};
use reedbiscuit::{DONE, RESULT_WORDS, WORKING_WORDS};

fn main() {
    let mut file = Vec::new();
    // A byte more than the longest file has, so that a longer one is seen to be longer, and refused.
    let taken = io::stdin().take(FILE_BYTES as u64 + 1).read_to_end(&mut file);
    if taken.is_err() {
        // What cannot be read is no file: it is taken for an empty one, which the reader refuses.
        file.clear();
    }
    let (number, result) = match apply(&file) {
        Ok(result) => (DONE, result),
        Err(number) => (number, Vec::new()),
    };
    let words: String = result.iter().map(|word| format!(" {word}")).collect();
    println!("{number} {}{words}", result.len());
}

/// What the file's rule makes of its subject, or the number of the first call that refuses.
fn apply(file: &[u8]) -> Result<Vec<u32>, u32> {
    // Each table is as long as any file can ask for, so that none is refused for want of room.
    let mut left = vec![0; FILE_SIDE_WORDS];
    let mut right = vec![0; FILE_SIDE_WORDS];
    let mut subject = vec![0; FILE_SUBJECT_WORDS];
    let read = reedbiscuit::read(file, &mut left, &mut right, &mut subject);
    done(read.number)?;
    left.truncate(read.left as usize);
    right.truncate(read.right as usize);
    subject.truncate(read.subject as usize);

    let mut code = vec![0; CODE_WORDS];
    let compiled = reedbiscuit::compile(&left, &right, &mut code);
    done(compiled.number)?;
    code.truncate(compiled.words as usize);

    // No check here: compiled code always passes, and a run asks the check itself, wherever its
    // code comes from.
    let mut working = vec![0; WORKING_WORDS];
    let mut result = vec![0; RESULT_WORDS];
    let run = reedbiscuit::run(&code, &subject, &mut working, &mut result);
    done(run.number)?;
    result.truncate(run.words as usize);
    Ok(result)
}

fn done(number: u32) -> Result<(), u32> {
    match number {
        DONE => Ok(()),
        refusal => Err(refusal),
    }
}

/// The library's calls, over slices; include/reedbiscuit.h says what each does.
mod reedbiscuit {
    pub const DONE: u32 = 0;
    pub const FILE_BYTES: usize = 40_973;
    pub const FILE_SIDE_WORDS: usize = 1_024;
    pub const FILE_SUBJECT_WORDS: usize = 8_192;
    pub const CODE_WORDS: usize = 4_096;
    pub const WORKING_WORDS: usize = 8_192;
    pub const RESULT_WORDS: usize = 8_192;

    #[repr(C)]
    pub struct ReadAnswer {
        pub number: u32,
        pub left: u32,
        pub right: u32,
        pub subject: u32,
    }

    #[repr(C)]
    pub struct Answer {
        pub number: u32,
        pub words: u32,
    }

    extern "C" {
        fn reed_read(
            file: *const u8,
            file_length: usize,
            left: *mut u32,
            left_length: usize,
            right: *mut u32,
            right_length: usize,
            subject: *mut u32,
            subject_length: usize,
        ) -> ReadAnswer;

        fn reed_compile(
            left: *const u32,
            left_length: usize,
            right: *const u32,
            right_length: usize,
            code: *mut u32,
            code_length: usize,
        ) -> Answer;

        fn reed_run(
            code: *const u32,
            code_length: usize,
            subject: *const u32,
            subject_length: usize,
            working: *mut u32,
            working_length: usize,
            result: *mut u32,
            result_length: usize,
        ) -> Answer;
    }

    pub fn read(
        file: &[u8],
        left: &mut [u32],
        right: &mut [u32],
        subject: &mut [u32],
    ) -> ReadAnswer {
        // Sound: what the header asks of lent memory is what Rust promises of a slice. The pointer
        // is aligned and not null, as many units stand there as the length says, in at most
        // isize::MAX bytes, and nobody else has those of a `&mut`. So pointer and length, handed
        // over together, are that slice again on the other side, and the call has no other memory.
        // An empty slice's pointer is aligned and not null too. It need not point to memory: with
        // a length of 0 the call reads and writes nothing through it.
        unsafe {
            reed_read(
                file.as_ptr(),
                file.len(),
                left.as_mut_ptr(),
                left.len(),
                right.as_mut_ptr(),
                right.len(),
                subject.as_mut_ptr(),
                subject.len(),
            )
        }
    }

    pub fn compile(left: &[u32], right: &[u32], code: &mut [u32]) -> Answer {
        // Sound: as for `read`.
        unsafe {
            reed_compile(
                left.as_ptr(),
                left.len(),
                right.as_ptr(),
                right.len(),
                code.as_mut_ptr(),
                code.len(),
            )
        }
    }

    pub fn run(code: &[u32], subject: &[u32], working: &mut [u32], result: &mut [u32]) -> Answer {
        // Sound: as for `read`.
        unsafe {
            reed_run(
                code.as_ptr(),
                code.len(),
                subject.as_ptr(),
                subject.len(),
                working.as_mut_ptr(),
                working.len(),
                result.as_mut_ptr(),
                result.len(),
            )
        }
    }
}
