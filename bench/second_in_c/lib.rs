//! The second implementation behind the names of include/reedbiscuit.h, so that the host program can
//! be linked with it in the library's place.

use core::slice::{from_raw_parts as part, from_raw_parts_mut as part_mut};

#[repr(C)]
pub struct ReedReadAnswer {
    number: u32,
    left: u32,
    right: u32,
    subject: u32,
}

#[repr(C)]
pub struct ReedAnswer {
    number: u32,
    words: u32,
}

#[repr(C)]
pub struct ReedWatchAnswer {
    number: u32,
    current: u32,
    entries: u32,
    finished: u32,
    node: u32,
}

#[repr(C)]
pub struct ReedListAnswer {
    number: u32,
    words: u32,
    rewrites: u32,
    normal: u32,
}

impl From<second::Answer> for ReedAnswer {
    fn from(answer: second::Answer) -> ReedAnswer {
        ReedAnswer { number: answer.number, words: answer.words }
    }
}

/// # Safety
/// As the header says of lent memory; so it is for all calls here.
#[no_mangle]
pub unsafe extern "C" fn reed_read(
    file: *const u8,
    file_length: usize,
    left: *mut u32,
    left_length: usize,
    right: *mut u32,
    right_length: usize,
    subject: *mut u32,
    subject_length: usize,
) -> ReedReadAnswer {
    let file = part(file, file_length);
    let (left, right) = (part_mut(left, left_length), part_mut(right, right_length));
    let second::ReadAnswer { number, left, right, subject } =
        second::read(file, left, right, part_mut(subject, subject_length));
    ReedReadAnswer { number, left, right, subject }
}

/// # Safety
/// As for `reed_read`.
#[no_mangle]
pub unsafe extern "C" fn reed_compile(
    left: *const u32,
    left_length: usize,
    right: *const u32,
    right_length: usize,
    code: *mut u32,
    code_length: usize,
) -> ReedAnswer {
    let (left, right) = (part(left, left_length), part(right, right_length));
    second::compile(left, right, part_mut(code, code_length)).into()
}

/// # Safety
/// As for `reed_read`.
#[no_mangle]
pub unsafe extern "C" fn reed_check(code: *const u32, code_length: usize) -> u32 {
    second::check(part(code, code_length))
}

/// # Safety
/// As for `reed_read`.
#[no_mangle]
pub unsafe extern "C" fn reed_run(
    code: *const u32,
    code_length: usize,
    subject: *const u32,
    subject_length: usize,
    working: *mut u32,
    working_length: usize,
    result: *mut u32,
    result_length: usize,
) -> ReedAnswer {
    let (code, subject) = (part(code, code_length), part(subject, subject_length));
    let (working, result) = (part_mut(working, working_length), part_mut(result, result_length));
    second::run(code, subject, working, result).into()
}

/// # Safety
/// As for `reed_read`.
#[no_mangle]
pub unsafe extern "C" fn reed_watch(
    code: *const u32,
    code_length: usize,
    subject: *const u32,
    subject_length: usize,
    i: u32,
) -> ReedWatchAnswer {
    let (code, subject) = (part(code, code_length), part(subject, subject_length));
    let second::WatchAnswer { number, current, entries, finished, node } =
        second::watch(code, subject, i);
    ReedWatchAnswer { number, current, entries, finished, node }
}

/// # Safety
/// As for `reed_read`.
#[no_mangle]
pub unsafe extern "C" fn reed_list_run(
    rules: *const u32,
    rules_length: usize,
    subject: *const u32,
    subject_length: usize,
    rewrites: u32,
    working: *mut u32,
    working_length: usize,
    result: *mut u32,
    result_length: usize,
) -> ReedListAnswer {
    let (rules, subject) = (part(rules, rules_length), part(subject, subject_length));
    let (working, result) = (part_mut(working, working_length), part_mut(result, result_length));
    let second::ListAnswer { number, words, rewrites, normal } =
        second::list_run(rules, subject, rewrites, working, result);
    ReedListAnswer { number, words, rewrites, normal }
}
