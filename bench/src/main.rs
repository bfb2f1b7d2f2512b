//! `reed-bench CALL SIDE CASE TIMES`: makes a call so many times, for callgrind to count
//! instructions.
//! `reed-bench CALL SIDE CASE stack`: makes it once and prints how many bytes of stack that took; on
//! another machine than x86-64 not for `second`.
//! `reed-bench CALL SIDE CASE size`: prints by how many words or nodes the instructions are to be
//! divided.
//!
//! CALL is `read`, `compile`, `check`, `run`, `watch` or `list_run`, SIDE is `reedbiscuit` or
//! `second`; each call's module knows its cases, `plans.rs` those of the run and watch. run.sh makes
//! tables of it all.

mod check;
mod compile;
mod list_run;
mod plans;
mod proved;
mod read;
mod run;
#[cfg(target_arch = "x86_64")]
mod stack;
mod watch;

#[derive(Clone, Copy)]
enum Side {
    Proved,
    Second,
}

/// A call with all that it is lent.
trait Case {
    fn named(name: &str) -> Self;

    /// The words or nodes that it is about.
    fn size(&self) -> usize;

    /// Makes the call. The same code is round both sides', so that it costs both the same.
    fn make(&mut self, side: Side);
}

fn main() {
    let words: Vec<String> = std::env::args().skip(1).collect();
    let [call, side, case, what] = &words[..] else {
        panic!("usage: reed-bench CALL SIDE CASE TIMES|stack|size")
    };
    let side = side_of(side);
    match call.as_str() {
        "read" => measure(read::File::named(case), side, what),
        "compile" => measure(compile::LentRule::named(case), side, what),
        "check" => measure(check::LentCode::named(case), side, what),
        "run" => measure(run::LentPlan::named(case), side, what),
        "watch" => measure(watch::Watched::named(case), side, what),
        "list_run" => measure(list_run::LentList::named(case), side, what),
        _ => panic!("no such call: {call}"),
    }
}

fn side_of(name: &str) -> Side {
    match name {
        "reedbiscuit" => Side::Proved,
        "second" => Side::Second,
        _ => panic!("no such side: {name}"),
    }
}

fn measure(mut case: impl Case, side: Side, what: &str) {
    match what {
        "size" => println!("{}", case.size()),
        #[cfg(not(target_arch = "x86_64"))]
        "stack" => println!("{}", proved::stack(|| case.make(side)) - proved::stack(|| ())),
        #[cfg(target_arch = "x86_64")]
        "stack" => {
            let nothing = stack::written_by(|| ());
            println!("{}", stack::written_by(|| case.make(side)) - nothing);
        }
        times => {
            for _ in 0..times.parse().expect("TIMES is a number") {
                case.make(side);
            }
        }
    }
}
