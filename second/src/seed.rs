//! Seeded cases for tests: rules, subjects, code, results at their limits, lists
//! and files. The same seed gives the same cases on every machine: no time, no
//! randomness of the system, no order of a hash table.
//!
//! Nothing here calls the calls under test, so that a case can be judged by any
//! implementation. Words are given as `Vec<u32>`, the tables of document 01.

mod codes;
mod edges;
mod files;
pub mod large;
mod lists;
mod results;
mod rng;
mod rules;
mod subjects;
mod term;

pub use codes::{damaged_code, foreign_code, ForeignCode};
pub use edges::{edge_code, EDGES};
pub use files::{damaged_file, edge_file, file_of};
pub use lists::{feeding_plan, feeding_rules, planted};
pub use results::{result_at_limit, ResultCase, RESULT_CASES};
pub use rng::Rng;
pub use rules::{break_rule, edge_rule, good_rule, Rule, BREAKS, EDGE_RULES};
pub use subjects::{matching_subject, nearly, random_subject, random_term};
pub use term::{Term, SIDE_LEAVES};
