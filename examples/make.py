#!/usr/bin/env python3
"""Writes the rule files of this folder from their words, which are document 01's examples put down by hand, and the lists of rewrite/.

    python3 examples/make.py [FOLDER]

The line that plan_apply prints for NAME.rule stands in NAME.line, what rewrite.c prints for the list rewrite/NAME/*.rule in rewrite/NAME/line,
or for a refused file in rewrite/NAME/error. Nothing here or there was made by a program under test.
"""

import struct
import sys
from pathlib import Path

# Nodes: a variable, symbols and metavariables with their argument counts, an abstraction. App is 1/2, Lam 2/1.
def var(index): return [index, 0]
def sym(name, *arguments): return [0x10000 + name, len(arguments), *sum(arguments, [])]
def meta(name, *arguments): return [0x20000 + name, len(arguments), *sum(arguments, [])]
def abst(body): return [0x30000, 1, *body]

def app(function, argument): return sym(1, function, argument)
def lam(body): return sym(2, abst(body))
def c(): return sym(3)
def f(*arguments): return sym(4, *arguments)
def p(first, second): return sym(6, var(first), var(second))
def z(*arguments): return meta(1, *arguments)

BETA = ([65537, 2, 65538, 1, 196608, 1, 131073, 1, 0, 0, 131074, 0], [131073, 1, 131074, 0])
ETA = (lam(app(z(), var(0))), z())
TURNED = (f(abst(abst(z(var(1), var(0)))), abst(abst(z(var(0), var(1))))), c())
LIFTED = (f(z()), f(abst(z())))

def turned(second): return f(abst(abst(p(1, 0))), abst(abst(second)))

RULES = {
    "beta": (*BETA, [65537, 2, 65538, 1, 196608, 1, 65539, 2, 0, 0, 0, 0, 7, 0]),
    "p3": (*BETA, app(lam(lam(var(1))), var(7))),
    "p4": (*BETA, app(lam(var(3)), var(7))),
    "p5": (*ETA, lam(app(var(5), var(0)))),
    "p6": (*ETA, lam(app(var(0), var(0)))),
    "p7": (*TURNED, turned(p(0, 1))),
    "p8": (*TURNED, turned(p(1, 0))),
    "p9": (*LIFTED, f(var(65534))),
    "p10": (*LIFTED, f(var(65535))),
}

# Wake plans: commands, waits, one after the other, and a latency bound to a variable. A latency is 256 x high + low microseconds.
def cmd(number): return sym(1, number)
def wait(latency): return sym(2, latency)
def seq(first, *others): return sym(3, first, seq(*others)) if others else first
def bind(latency, body): return sym(4, latency, abst(body))
def lat(microseconds): return sym(5, sym(1000 + microseconds // 256), sym(1000 + microseconds % 256))

POWER_ON, RESET, IDENTIFY, FLUSH = (cmd(sym(number)) for number in (100, 101, 102, 103))
X, Y, L, C = (meta(number) for number in (1, 2, 3, 4))
def w(*arguments): return meta(5, *arguments)

# A new stick model: it starts in 12,000 microseconds and not in 8,000, and is reset in 300.
SLOWER_START = (wait(lat(8000)), wait(lat(12000)))
SLOWER_RESET = (wait(lat(250)), wait(lat(300)))
# A binding is put in place (rule B adapted), or left out where nobody uses it.
INLINED = (bind(L, w(var(0))), w(L))
UNUSED = (bind(L, X), X)
# A command moves out from under a binding; it cannot use its latency.
MOVED = (bind(L, seq(cmd(C), w(var(0)))), seq(cmd(C), bind(L, w(var(0)))))
# What comes one after the other, to the right; and no wait before a flush.
TO_THE_RIGHT = (seq(seq(X, Y), w()), seq(X, Y, w()))
NO_WAIT = (seq(wait(X), FLUSH), FLUSH)
# Y stands on the right only.
ABSENT = (wait(X), seq(wait(X), Y))

START = seq(POWER_ON, wait(lat(8000)), RESET, wait(lat(250)), IDENTIFY, wait(lat(8000)))
BOUND = bind(lat(8000), seq(POWER_ON, wait(var(0)), bind(lat(250), seq(RESET, wait(var(0)), wait(var(1))))))
UNDER = bind(lat(250), seq(POWER_ON, RESET, wait(var(0)), IDENTIFY))
NESTED = bind(lat(250), seq(seq(POWER_ON, RESET), seq(wait(var(0)), FLUSH)))

# How many rewrites there may be, the plan, and the rules in their order.
LISTS = {
    "waits": (1000, START, [SLOWER_START, SLOWER_RESET]),
    "inlined": (1000, BOUND, [INLINED]),
    "moved": (1000, UNDER, [MOVED]),
    "feeding": (1000, NESTED, [TO_THE_RIGHT, MOVED, NO_WAIT, UNUSED]),
    "used_up": (3, NESTED, [TO_THE_RIGHT, MOVED, NO_WAIT, UNUSED]),
    "refused": (1000, START, [SLOWER_START, ABSENT]),
}


def file_of(*tables):
    """Version 1, then each table's word count and words, big-endian."""
    return b"\x01" + b"".join(struct.pack(f">I{len(table)}I", len(table), *table) for table in tables)


def main():
    folder = Path(sys.argv[1] if len(sys.argv) > 1 else Path(__file__).parent)
    for name, tables in RULES.items():
        (folder / f"{name}.rule").write_bytes(file_of(*tables))
    (folder / "empty.rule").write_bytes(b"")
    # As many words as each table may have, and a byte after.
    (folder / "long.rule").write_bytes(file_of([0] * 1024, [0] * 1024, [0] * 8192) + b"\x00")
    for name, (rewrites, plan, rules) in LISTS.items():
        of_list = folder / "rewrite" / name
        of_list.mkdir(parents=True, exist_ok=True)
        (of_list / "rewrites").write_text(f"{rewrites}\n")
        for number, rule in enumerate(rules, 1):
            # Only the first file's subject is the plan.
            (of_list / f"{number}.rule").write_bytes(file_of(*rule, plan if number == 1 else IDENTIFY))


if __name__ == "__main__":
    main()
