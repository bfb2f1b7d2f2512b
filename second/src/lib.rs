//! Wake-plan rules: the independent second implementation.
//!
//! Written from documents 01 and 02 and source document 004 alone. The modules follow
//! the way of the data: bytes, tables, rules, code, check, machine, result.
//! No call but `plan_apply` takes memory of its own.

#![forbid(unsafe_code)]

mod build;
mod bytes;
mod check;
mod code;
mod keys;
pub mod limits;
mod list_run;
mod matching;
mod measure;
mod program;
mod refusals;
mod rules;
mod run;
pub mod seed;
mod tables;
mod translate;
mod watch;
mod working;

pub use bytes::{read, ReadAnswer};
pub use check::check;
pub use list_run::{list_run, ListAnswer};
pub use program::plan_apply;
pub use refusals::Answer;
pub use run::run;
pub use translate::compile;
pub use watch::{watch, WatchAnswer};
