//! What watch tells at every step of two codes, written by hand from document 01 and 004.

use linked::call::Answer;
use linked::engine::Engine;
use linked::numbers::{DONE, MATCH_FAILS};
use linked::watch::Watch;
use second::seed::Rng;

/// Code, a subject, and current terms, entries, finished terms and node after each instruction.
struct Example {
    name: &'static str,
    code: &'static [u32],
    subject: &'static [u32],
    steps: &'static [[u32; 4]],
    /// Whether the instruction after these fails.
    fails: bool,
}

#[rustfmt::skip]
const EXAMPLES: [Example; 3] = [
    Example {
        name: "rule B on document 01's subject",
        code: &[0, 1, 2, 0, 2, 1, 1, 3, 0, 4, 2, 3, 0, 4, 2, 13, 1, 63, 1, 0, 4, 13, 0, 64, 0],
        // App, Lam, the abstraction, P of two variables 0, variable 7: nodes 0 to 6.
        subject: &[65_537, 2, 65_538, 1, 196_608, 1, 65_539, 2, 0, 0, 0, 0, 7, 0],
        steps: &[
            [1, 0, 0, 0],
            [2, 0, 0, 1],         // IS App
            [2, 0, 0, 2],         // IS Lam
            [2, 0, 0, 3],         // ISABST
            [2, 0, 0, 3],         // CHECK []
            [2, 1, 0, 3],         // SET
            [1, 1, 0, 6],         // NEXT
            [1, 1, 0, 6],         // CHECK []
            [1, 2, 0, 6],         // SET
            [0, 2, 0, 7],         // NEXT
            [0, 2, 1, 7],         // PUSHI, with the one in its body
        ],
        fails: false,
    },
    Example {
        name: "P6",
        code: &[0, 2, 1, 1, 0, 1, 2, 3, 1, 0, 4, 2, 5, 0, 2, 13, 0, 63, 0],
        // Lam([App(0, 0)])
        subject: &[65_538, 1, 196_608, 1, 65_537, 2, 0, 0, 0, 0],
        steps: &[
            [1, 0, 0, 0],
            [1, 0, 0, 1],         // IS Lam
            [1, 0, 0, 2],         // ISABST
            [2, 0, 0, 3],         // IS App; CHECK [0] fails
        ],
        fails: true,
    },
    Example {
        name: "figure 1, with the cheap instruction in blocks",
        code: &[
            0, 100, 1, 1, 0, 102, 2, 3, 1, 0, 4, 2, 3, 0, 4, 2, 9, 12, 0, 10, 8, 100, 1, 13, 1, 63,
            0, 8, 100, 1, 9, 12, 0, 10, 8, 101, 2, 8, 103, 2,
        ],
        // D([App(6, 0)])
        subject: &[65_636, 1, 196_608, 1, 65_638, 2, 6, 0, 0, 0],
        steps: &[
            [1, 0, 0, 0],
            [1, 0, 0, 1],         // IS D
            [1, 0, 0, 2],         // ISABST
            [2, 0, 0, 3],         // IS App
            [2, 0, 0, 3],         // CHECK [0]
            [2, 1, 0, 3],         // SET
            [1, 1, 0, 4],         // NEXT
            [1, 1, 0, 4],         // CHECK []
            [1, 2, 0, 4],         // SET
            [0, 2, 0, 5],         // NEXT
            [0, 2, 0, 5],         // LAMBDA
            [0, 2, 1, 5],         // PUSHIMM
            [0, 2, 1, 5],         // ADBMAL
            [0, 2, 1, 5],         // CELL D
            [0, 2, 2, 5],         // PUSHI
            [0, 2, 2, 5],         // CELL D
            [0, 2, 2, 5],         // LAMBDA
            [0, 2, 3, 5],         // PUSHIMM, those outside the block counted
            [0, 2, 3, 5],         // ADBMAL
            [0, 2, 2, 5],         // CELL B of two
            [0, 2, 1, 5],         // CELL M of two
        ],
        fails: false,
    },
];

#[test]
fn reed_watch_does_what_the_documents_say() {
    let mut engine = Engine::start().expect("the library can be reached");
    for Example { name, code, subject, steps, fails } in EXAMPLES {
        for i in (0..steps.len() + 3).chain([u32::MAX as usize]) {
            let mut made = [Watch::new(&mut Rng::new(0), code, subject, i as u32)];
            let before = made.clone();
            let answers = engine.make(&mut made).expect("the library comes back");
            let [current, entries, finished, node] = steps[i.min(steps.len() - 1)];
            let expected: Answer = if fails && i >= steps.len() {
                [MATCH_FAILS, 0, 0, 0, 0]
            } else {
                [DONE, current, entries, finished, node]
            };
            assert_eq!(answers, [expected], "{name}, i = {i}");
            assert!(made == before, "{name}, i = {i}: lent memory was changed");
        }
    }
}
