//! The library linked into this process: include/reedbiscuit.h, call by call, over slices.
#![allow(unsafe_code)]

use second::{Answer, ListAnswer, ReadAnswer, WatchAnswer};

#[repr(C)]
struct ReedReadAnswer {
    number: u32,
    left: u32,
    right: u32,
    subject: u32,
}

#[repr(C)]
struct ReedAnswer {
    number: u32,
    words: u32,
}

#[repr(C)]
struct ReedWatchAnswer {
    number: u32,
    current: u32,
    entries: u32,
    finished: u32,
    node: u32,
}

#[repr(C)]
struct ReedListAnswer {
    number: u32,
    words: u32,
    rewrites: u32,
    normal: u32,
}

extern "C" {
    fn reed_read(
        file: *const u8,
        file_length: usize,
        left: *mut u32,
        left_length: usize,
        right: *mut u32,
        right_length: usize,
        subject: *mut u32,
        subject_length: usize,
    ) -> ReedReadAnswer;

    fn reed_compile(
        left: *const u32,
        left_length: usize,
        right: *const u32,
        right_length: usize,
        code: *mut u32,
        code_length: usize,
    ) -> ReedAnswer;

    fn reed_check(code: *const u32, code_length: usize) -> u32;

    fn reed_run(
        code: *const u32,
        code_length: usize,
        subject: *const u32,
        subject_length: usize,
        working: *mut u32,
        working_length: usize,
        result: *mut u32,
        result_length: usize,
    ) -> ReedAnswer;

    fn reed_watch(
        code: *const u32,
        code_length: usize,
        subject: *const u32,
        subject_length: usize,
        i: u32,
    ) -> ReedWatchAnswer;

    fn reed_list_run(
        rules: *const u32,
        rules_length: usize,
        subject: *const u32,
        subject_length: usize,
        rewrites: u32,
        working: *mut u32,
        working_length: usize,
        result: *mut u32,
        result_length: usize,
    ) -> ReedListAnswer;
}

#[inline]
pub fn read(file: &[u8], left: &mut [u32], right: &mut [u32], subject: &mut [u32]) -> ReadAnswer {
    // Sound: each pointer comes with its slice's length, and no slice overlaps another.
    let answer = unsafe {
        reed_read(
            file.as_ptr(),
            file.len(),
            left.as_mut_ptr(),
            left.len(),
            right.as_mut_ptr(),
            right.len(),
            subject.as_mut_ptr(),
            subject.len(),
        )
    };
    let ReedReadAnswer { number, left, right, subject } = answer;
    ReadAnswer { number, left, right, subject }
}

#[inline]
pub fn compile(left: &[u32], right: &[u32], code: &mut [u32]) -> Answer {
    // Sound: as for `read`.
    let ReedAnswer { number, words } = unsafe {
        reed_compile(
            left.as_ptr(),
            left.len(),
            right.as_ptr(),
            right.len(),
            code.as_mut_ptr(),
            code.len(),
        )
    };
    Answer { number, words }
}

#[inline]
pub fn check(code: &[u32]) -> u32 {
    // Sound: as for `read`.
    unsafe { reed_check(code.as_ptr(), code.len()) }
}

#[inline]
pub fn run(code: &[u32], subject: &[u32], working: &mut [u32], result: &mut [u32]) -> Answer {
    // Sound: as for `read`.
    let ReedAnswer { number, words } = unsafe {
        reed_run(
            code.as_ptr(),
            code.len(),
            subject.as_ptr(),
            subject.len(),
            working.as_mut_ptr(),
            working.len(),
            result.as_mut_ptr(),
            result.len(),
        )
    };
    Answer { number, words }
}

#[inline]
pub fn watch(code: &[u32], subject: &[u32], i: u32) -> WatchAnswer {
    // Sound: as for `read`.
    let answer =
        unsafe { reed_watch(code.as_ptr(), code.len(), subject.as_ptr(), subject.len(), i) };
    let ReedWatchAnswer { number, current, entries, finished, node } = answer;
    WatchAnswer { number, current, entries, finished, node }
}

#[inline]
pub fn list_run(
    rules: &[u32],
    subject: &[u32],
    rewrites: u32,
    working: &mut [u32],
    result: &mut [u32],
) -> ListAnswer {
    // Sound: as for `read`.
    let answer = unsafe {
        reed_list_run(
            rules.as_ptr(),
            rules.len(),
            subject.as_ptr(),
            subject.len(),
            rewrites,
            working.as_mut_ptr(),
            working.len(),
            result.as_mut_ptr(),
            result.len(),
        )
    };
    let ReedListAnswer { number, words, rewrites, normal } = answer;
    ListAnswer { number, words, rewrites, normal }
}
