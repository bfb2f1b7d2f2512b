#!/usr/bin/env python3
"""agree.py SEED COUNT [MOST]: the definitions against the second implementation.

Takes COUNT test vectors of second's tool (those of at most MOST numbers), writes them as a crate over crates/rewriting in a temporary
repository, and lets the prover compute each call's definition on them: it is proved exactly if every number, count and lent word is what the
second implementation gave. Nothing of this is kept."""
import os
import shutil
import subprocess
import sys
import tempfile

ROOT = os.path.dirname(os.path.dirname(os.path.abspath(__file__)))
CHUNK = 20  # vectors a declaration: each is computed under a step limit of its own
CRATES = {"documents": "", "kahrs": "documents", "safety": "documents kahrs", "compiled": "documents kahrs", "rewriting": "documents kahrs safety compiled"}

SPECS = """-- Vectors of the second implementation, and when a definition agrees with one.
use Rattle.std.specs.Prelude.{ℕ, Bool, ◌&&◌, cond, List, [], ◌∷◌, ◌++◌, eqb, replicate}
use Rattle.documents.specs.Examples.{same_words}
use Rattle.documents.specs.Calls.{ReadAnswer, read_call, CompileAnswer, compile_call, check_call, RunAnswer, run_call, WatchAnswer, watch_call, plan_apply}
use Rattle.rewriting.specs.ListCall.{ListAnswer, list_call}

-- a lent table afterwards: the words at its front, and what fills the rest
pub data After : Type 0 where
  after : List ℕ → ℕ → ℕ → After

abbrev pub is : List ℕ → After → Bool
is ws (after front rest fill) = same_words ws (front ++ replicate rest fill)

pub data Vector : Type 0 where
  reads : List ℕ → List ℕ → List ℕ → List ℕ → List ℕ → After → After → After → Vector
  compiles : List ℕ → List ℕ → List ℕ → List ℕ → After → Vector
  checks : List ℕ → ℕ → Vector
  runs : List ℕ → List ℕ → List ℕ → List ℕ → List ℕ → After → After → Vector
  lists : List ℕ → List ℕ → ℕ → List ℕ → List ℕ → List ℕ → After → After → Vector
  watches : List ℕ → List ℕ → ℕ → List ℕ → Vector
  applies : List ℕ → List ℕ → Vector

abbrev pub read_agrees : ReadAnswer → List ℕ → After → After → After → Bool
read_agrees a ns l r s =
    same_words (a.number ∷ a.left_words ∷ a.right_words ∷ a.subject_words ∷ []) ns && is a.left l && is a.right r && is a.subject s

abbrev pub compile_agrees : CompileAnswer → List ℕ → After → Bool
compile_agrees a ns c = same_words (a.number ∷ a.words ∷ []) ns && is a.code c

abbrev pub run_agrees : RunAnswer → List ℕ → After → After → Bool
run_agrees a ns w r = same_words (a.number ∷ a.words ∷ []) ns && is a.working w && is a.result r

abbrev pub list_agrees : ListAnswer → List ℕ → After → After → Bool
list_agrees a ns w r = same_words (a.number ∷ a.words ∷ a.rewrites ∷ cond a.normal 1 0 ∷ []) ns && is a.working w && is a.result r

abbrev pub watch_agrees : WatchAnswer → List ℕ → Bool
watch_agrees a ns = same_words (a.number ∷ a.current ∷ a.entries ∷ a.finished ∷ a.node ∷ []) ns

abbrev pub agrees : Vector → Bool
agrees (reads bytes l r s ns l′ r′ s′) = read_agrees (read_call bytes l r s) ns l′ r′ s′
agrees (compiles l r c ns c′) = compile_agrees (compile_call l r c) ns c′
agrees (checks c n) = eqb (check_call c) n
agrees (runs c s w r ns w′ r′) = run_agrees (run_call c s w r) ns w′ r′
agrees (lists rs s n w r ns w′ r′) = list_agrees (list_call rs s n w r) ns w′ r′
agrees (watches c s i ns) = watch_agrees (watch_call c s i) ns
agrees (applies bytes line) = same_words (plan_apply bytes) line
"""

PROOFS = """use mathlib.Core.Path.{◌≡◌, refl}
use Rattle.std.specs.Prelude.{ℕ, true, List, [], ◌∷◌, replicate}
use Rattle.documents.specs.Lists.{every}
use Rattle.documents.specs.Instructions.{program_from, plain_in}
use Rattle.documents.specs.Numbers.{table_in, subject_in, rule_in, code_in, result_for}
use Rattle.documents.specs.Calls.{file_in, read_call, compile_call, check_call, runs as runs_of, run_call, watches as watches_of, watch_call, plan_line, plan_apply}
use Rattle.rewriting.specs.Rewrites.{once}
use Rattle.rewriting.specs.RuleTable.{rules_in}
use Rattle.rewriting.specs.ListCall.{rewrites, list_runs, list_call}
use Rattle.agree.specs.Vectors.{After, after, Vector, reads, compiles, checks, runs, lists, watches, applies, agrees}
"""
UNFOLDING = ("unfolding program_from plain_in table_in subject_in rule_in code_in result_for file_in read_call compile_call check_call runs_of run_call "
             "watches_of watch_call plan_line plan_apply once rules_in rewrites list_runs list_call\n")


class Line:
    """The numbers of a vector's line, taken one after the other."""

    def __init__(self, text):
        call, *rest = text.split()
        self.call, self.numbers = call, [int(w) for w in rest if w != "->"]
        self.size = len(self.numbers)

    def one(self):
        return self.numbers.pop(0)

    def words(self, n):
        taken, self.numbers = self.numbers[:n], self.numbers[n:]
        return "(" + "".join(f"{w} ∷ " for w in taken) + "[])"

    def table(self):
        return self.words(self.one())

    def lent(self):
        length, fill = self.one(), self.one()
        return length, f"(replicate {length} {fill})"

    def after(self, length):
        front = self.one()
        words = self.words(front)
        return f"(after {words} {length - front} {self.one()})"

    def vector(self):
        return getattr(self, self.call)()

    def read(self):
        bytes_ = self.table()
        lent = [self.lent() for _ in range(3)]
        return f"reads {bytes_} {' '.join(t for _, t in lent)} {self.words(4)} {' '.join(self.after(n) for n, _ in lent)}"

    def compile(self):
        left, right, (n, code) = self.table(), self.table(), self.lent()
        return f"compiles {left} {right} {code} {self.words(2)} {self.after(n)}"

    def check(self):
        return f"checks {self.table()} {self.one()}"

    def run(self):
        code, subject, (m, work), (n, result) = self.table(), self.table(), self.lent(), self.lent()
        return f"runs {code} {subject} {work} {result} {self.words(2)} {self.after(m)} {self.after(n)}"

    def list_run(self):
        rules, subject, rewrites, (m, work), (n, result) = self.table(), self.table(), self.one(), self.lent(), self.lent()
        return f"lists {rules} {subject} {rewrites} {work} {result} {self.words(4)} {self.after(m)} {self.after(n)}"

    def watch(self):
        return f"watches {self.table()} {self.table()} {self.one()} {self.words(5)}"

    def plan_apply(self):
        bytes_ = self.table()
        self.one()
        length = self.one()
        line = bytes(self.numbers[:length]).decode()
        return f"applies {bytes_} ({''.join(w + ' ∷ ' for w in line.split())}[])"


def declarations(vectors):
    for i in range(0, len(vectors), CHUNK):
        yield (f"\nabbrev vectors_{i} : List Vector\nvectors_{i} =\n    " + "\n    ∷ ".join(vectors[i:i + CHUNK]) + "\n    ∷ []\n"
               f"\nagreed_{i} : every agrees vectors_{i} ≡ true\n{UNFOLDING}agreed_{i} = refl\n")


def write(path, text):
    os.makedirs(os.path.dirname(path), exist_ok=True)
    with open(path, "w") as f:
        f.write(text)


def main():
    seed, count = sys.argv[1:3]
    most = int(sys.argv[3]) if len(sys.argv) > 3 else 700
    made = subprocess.run(["cargo", "run", "--quiet", "--offline", "--release", "--bin", "vectors", "--", seed, count], cwd=f"{ROOT}/second",
                          check=True, text=True, stdout=subprocess.PIPE, stderr=subprocess.DEVNULL).stdout
    lines = [line for line in map(Line, made.splitlines()) if line.size <= most]
    vectors = [line.vector() for line in lines]
    with tempfile.TemporaryDirectory() as repo:
        for crate in CRATES:
            shutil.copytree(f"{ROOT}/crates/{crate}", f"{repo}/crates/{crate}", ignore=shutil.ignore_patterns("must-fail", "out"))
        write(f"{repo}/crates.txt", "".join(f"{crate}: {needs}\n" for crate, needs in CRATES.items()) + "agree: documents rewriting\n")
        write(f"{repo}/crates/agree/src/lib.rt", "// Vectors only.\n#![tactic(auto)]\n")
        write(f"{repo}/crates/agree/specs/Lib.antt", "pub mod Vectors\n")
        write(f"{repo}/crates/agree/specs/Vectors.antt", SPECS)
        write(f"{repo}/crates/agree/proofs/Lib.antt", "pub mod Agree\n")
        write(f"{repo}/crates/agree/proofs/Agree.antt", PROOFS + "".join(declarations(vectors)))
        done = subprocess.run(["rt", "check"], cwd=f"{repo}/crates/agree", text=True, stdout=subprocess.PIPE, stderr=subprocess.STDOUT)
        if done.returncode != 0:
            print(done.stdout)
            sys.exit("agree: not shown: 'expected type' above names vectors that differ, 'step limit' such as compute too long (lower MOST)")
    print(f"agree: the definitions and the second implementation agree on {len(vectors)} of {count} vectors (seed {seed})")


if __name__ == "__main__":
    main()
