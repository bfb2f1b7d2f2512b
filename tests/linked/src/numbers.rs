//! The documents' numbers, as tests expect them.

pub const DONE: u32 = 0;
pub const TABLE_NOT_GOOD: u32 = 1;
pub const TOO_MANY_WORDS: u32 = 2;
pub const TOO_DEEP: u32 = 3;
pub const METAVARIABLE_IN_SUBJECT: u32 = 4;
pub const LEFT_ROOT_NO_SYMBOL: u32 = 5;
pub const FREE_VARIABLE: u32 = 6;
pub const ARGUMENTS_NOT_DISTINCT_VARIABLES: u32 = 7;
pub const ABSENT_ON_LEFT: u32 = 8;
pub const TOO_MANY_METAVARIABLES: u32 = 9;
pub const CODE_TABLE_SHORT: u32 = 10;
pub const CODE_DOES_NOT_PASS: u32 = 11;
pub const MATCH_FAILS: u32 = 12;
pub const RESULT_TOO_LARGE: u32 = 13;
pub const RESULT_TOO_DEEP: u32 = 14;
pub const RESULT_INDEX_TOO_HIGH: u32 = 15;
pub const WORKING_TABLE_SHORT: u32 = 16;
pub const BAD_FILE: u32 = 17;
pub const LIST_TOO_LONG: u32 = 37;
