//! The proved library: linked, or where that cannot be, in the tests' host program.

#[cfg(target_arch = "x86_64")]
pub use linked::engine::linked::{check, compile, list_run, read, run, watch};

#[cfg(not(target_arch = "x86_64"))]
pub use hosted::{check, compile, list_run, read, run, stack, watch};

#[cfg(not(target_arch = "x86_64"))]
mod hosted {
    use std::cell::RefCell;

    use linked::call::{Call, Difference};
    use linked::check::Check;
    use linked::compile::Compile;
    use linked::engine::Engine;
    use linked::guarded::Area;
    use linked::list_run::{self, ListRun};
    use linked::read::Read;
    use linked::run::{Lent, Run};
    use linked::watch::Watch;
    use second::seed::{Rng, Rule};
    use second::{Answer, ListAnswer, ReadAnswer, WatchAnswer};

    thread_local! {
        static ENGINE: RefCell<Engine> = RefCell::new(Engine::start().expect("a host program"));
    }

    pub fn read(
        file: &[u8],
        left: &mut [u32],
        right: &mut [u32],
        subject: &mut [u32],
    ) -> ReadAnswer {
        let lent = [left.len(), right.len(), subject.len()];
        let [number, left, right, subject, _] = made(Read::new(&mut Rng::new(0), file, lent));
        ReadAnswer { number, left, right, subject }
    }

    pub fn compile(left: &[u32], right: &[u32], code: &mut [u32]) -> Answer {
        let rule = Rule { left: left.to_vec(), right: right.to_vec() };
        let [number, words, ..] = made(Compile::new(&mut Rng::new(0), &rule, code.len()));
        Answer { number, words }
    }

    pub fn check(code: &[u32]) -> u32 {
        made(Check::new(&mut Rng::new(0), code))[0]
    }

    pub fn run(code: &[u32], subject: &[u32], working: &mut [u32], result: &mut [u32]) -> Answer {
        let lent = Lent { working: working.len(), result: result.len(), reach: 0 };
        let [number, words, ..] = made(Run::new(&mut Rng::new(0), code, subject, lent));
        Answer { number, words }
    }

    pub fn watch(code: &[u32], subject: &[u32], i: u32) -> WatchAnswer {
        let [number, current, entries, finished, node] =
            made(Watch::new(&mut Rng::new(0), code, subject, i));
        WatchAnswer { number, current, entries, finished, node }
    }

    pub fn list_run(
        rules: &[u32],
        subject: &[u32],
        rewrites: u32,
        working: &mut [u32],
        result: &mut [u32],
    ) -> ListAnswer {
        let lent = list_run::Lent { working: working.len(), result: result.len(), reach: 0 };
        let call = ListRun::new(&mut Rng::new(0), rules, subject, rewrites, lent);
        let [number, words, rewrites, normal, _] = made(call);
        ListAnswer { number, words, rewrites, normal }
    }

    /// The bytes of the host's stack that a call writes to.
    pub fn stack(call: impl FnOnce()) -> u32 {
        made(Stack { look: false });
        call();
        made(Stack { look: true })[1]
    }

    /// Paints the host's stack, or looks at it.
    #[derive(Clone, PartialEq)]
    struct Stack {
        look: bool,
    }

    impl Call for Stack {
        const NUMBER: u32 = 0;

        fn areas(&mut self) -> Vec<&mut dyn Area> {
            Vec::new()
        }

        fn argument(&self) -> u32 {
            self.look.into()
        }

        fn make_second(&mut self) -> linked::call::Answer {
            Default::default()
        }

        fn differences(&self, _: &Stack) -> Vec<Difference> {
            Vec::new()
        }
    }

    /// The words that it wrote stay with the host: only its answer is asked for.
    fn made(call: impl Call) -> linked::call::Answer {
        ENGINE.with_borrow_mut(|engine| engine.make(&mut [call]).expect("an answer")[0])
    }
}
