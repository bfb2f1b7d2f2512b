//! The numbers of document 01, and of 02 as far as it has landed, each in one place.

/// Words that a node takes in a table.
pub const NODE_WORDS: usize = 2;
/// Nodes in one side of a rule.
pub const SIDE_NODES: usize = 256;
/// Nodes in a subject.
pub const SUBJECT_NODES: usize = 4_096;
/// Nodes in a result.
pub const RESULT_NODES: usize = 4_096;
/// Depth of a table; the root has depth 1.
pub const DEPTH: usize = 64;
/// Arguments of a symbol or metavariable, pairs of an EQI, keys of a PUSHI.
pub const ARGUMENTS: usize = 8;
/// Distinct metavariables on the left.
pub const METAVARIABLES: usize = 16;
/// Every index and every name written in a table or in code.
pub const INDEX: u32 = 65_535;

/// Words of code.
pub const CODE_WORDS: usize = 4_096;
/// Words that the working table needs at least.
pub const WORKING_WORDS: usize = 8_192;
/// Terms that are current at once.
pub const CURRENT_TERMS: usize = 256;
/// Abstractions above a current term, and LAMBDAs open at once.
pub const BINDERS: usize = 63;
/// Entries that SET makes, one for each left metavariable.
pub const ENTRIES: usize = METAVARIABLES;
/// Blocks and bodies open at once.
pub const NESTING: usize = 64;
/// What is added to the difference d in EQI and PUSHI, so that no word is negative.
pub const DIFFERENCE_BIAS: u32 = 64;

/// Rules in a list.
pub const LIST_RULES: usize = 32;
/// Rewrites that a list run may be asked for.
pub const REWRITES: u32 = 1_000;
/// Words that the working table of a list run needs at least.
pub const LIST_WORKING_WORDS: usize = 16_384;

/// The only version byte of a file.
pub const FILE_VERSION: u8 = 1;
/// Words of a side in a file.
pub const FILE_SIDE_WORDS: usize = 1_024;
/// Words of a subject in a file.
pub const FILE_SUBJECT_WORDS: usize = 8_192;
/// Bytes of a count or a word in a file.
pub const FILE_WORD_BYTES: usize = 4;
/// Bytes of the longest good file.
pub const FILE_BYTES: usize = 1 + FILE_WORD_BYTES * (3 + 2 * FILE_SIDE_WORDS + FILE_SUBJECT_WORDS);
