//! The proved library, called as C calls it, beside the second implementation.
//!
//! `guarded` is the memory that a call is lent, `call` what every call has in common, and `engine`
//! reaches the library; `compare` makes seeded calls on both sides. Each call of the library has a
//! module of its own. `numbers` are those that it gives back; `code` writes code, instruction by
//! instruction.

#![deny(unsafe_code)]

pub mod call;
pub mod check;
pub mod code;
pub mod compare;
pub mod compile;
pub mod engine;
pub mod guarded;
pub mod list_run;
pub mod numbers;
pub mod read;
pub mod run;
pub mod watch;
